// @ts-check
// Elements of the page. Texts are only ever put in as texts, so that markup in them stays what it is: data.

export { figure } from "../words/figures.js";

/** @typedef {Node | string | number | null | undefined | false} Child */
/** @typedef {Record<string, string | number | boolean | null | undefined | EventListener>} Attributes */

/** An element with these attributes and children; `onclick` and the like are listeners.
 * @param {string} tag
 * @param {Attributes} [attributes]
 * @param {...(Child | Child[])} children
 * @returns {HTMLElement} */
export function element(tag, attributes = {}, ...children) {
  const made = document.createElement(tag);
  for (const [name, value] of Object.entries(attributes)) {
    if (typeof value === "function") made.addEventListener(name.slice(2), value);
    else if (value === true) made.setAttribute(name, "");
    else if (value !== false && value !== null && value !== undefined) made.setAttribute(name, String(value));
  }
  append(made, children);
  return made;
}

/** @param {Element} parent @param {(Child | Child[])[]} children */
export function append(parent, children) {
  for (const child of children.flat()) {
    if (child instanceof Node) parent.append(child);
    else if (child !== null && child !== undefined && child !== false) parent.append(String(child));
  }
}

/** @param {string} label @param {EventListener} onclick @param {Attributes} [attributes] */
export function button(label, onclick, attributes = {}) {
  return /** @type {HTMLButtonElement} */ (element("button", { type: "button", onclick, ...attributes }, label));
}

/** @param {Child | Child[]} label @param {string} to a screen, with its words @param {Attributes} [attributes] */
export const link = (label, to, attributes = {}) => element("a", { href: `#${to}`, ...attributes }, label);

/** A text whose blanks count, as those of order numbers do.
 * @param {string} text */
export const exact = (text) => element("span", { class: "exact" }, text);

/** A list of terms and what they are.
 * @param {[string, Child][]} rows */
export function terms(rows) {
  const row = (/** @type {[string, Child]} */ [term, what]) => element("div", {}, element("dt", {}, term), element("dd", {}, what));
  return element("dl", { class: "terms" }, ...rows.map(row));
}

let identifiers = 0;

/** An identifier that no other element of this page has.
 * @param {string} name */
export const newId = (name) => `${name}-${(identifiers += 1)}`;

/** The heading of a screen, which has the focus when the screen comes.
 * @param {...Child} children */
export const heading = (...children) => element("h1", { tabindex: "-1" }, ...children);

/** @param {...Child} children */
export const actions = (...children) => element("div", { class: "actions" }, ...children);

/** A notice of one paragraph.
 * @param {string} kind @param {...Child} words */
export const saying = (kind, ...words) => notice(kind, element("p", {}, ...words));

/** Gives a live region its words, unless it has them: what did not change is not spoken again.
 * @param {HTMLElement} region @param {string} words */
export function sayOnce(region, words) {
  if (region.textContent !== words) region.textContent = words;
}

/** A notice of one kind: `good`, `bad`, `warn` or `plain`.
 * @param {string} kind @param {...(Child | Child[])} children */
export const notice = (kind, ...children) => element("div", { class: `notice ${kind}` }, ...children);
