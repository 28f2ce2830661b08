// @ts-check
// Reads what was typed into a form, and puts it back. Each field has a name made of its own `data-field` and those of the groups around it,
// so that what was typed for one order line or pallet never comes to another, in whatever language the page is. Fields within `data-apart`
// are left out: the form itself keeps what they say.

import { phrases } from "../language.js";

/** @typedef {Record<string, string | boolean>} FormContent */
/** @typedef {HTMLInputElement | HTMLSelectElement} Input */

// All elements that match, but for those within `data-apart`, of which there can be very many.
/** @param {Element} root @param {string} selector */
function all(root, selector) {
  const { FILTER_ACCEPT, FILTER_REJECT, FILTER_SKIP } = NodeFilter;
  const found = [];
  const walker = document.createTreeWalker(root, NodeFilter.SHOW_ELEMENT, (it) => {
    const element = /** @type {HTMLElement} */ (it);
    return element.dataset.apart !== undefined ? FILTER_REJECT : element.matches(selector) ? FILTER_ACCEPT : FILTER_SKIP;
  });
  while (walker.nextNode()) found.push(/** @type {HTMLElement} */ (walker.currentNode));
  return found;
}

/** @param {Element} root */
const inputs = (root) => /** @type {Input[]} */ (all(root, "input:not([type=file]), select:not(.sort-choice *)"));

/** @param {Input} input @returns {input is HTMLInputElement} */
const isChoice = (input) => ["radio", "checkbox"].includes(input.type);

/** The fields with their names.
 * @param {Element} root @returns {[string, Input][]} */
const named = (root) => inputs(root).map((it) => [[...groups(it, root), it.dataset.field ?? ""].join("\n"), it]);

/** @param {Input} input @param {Element} root */
function groups(input, root) {
  const names = [];
  for (let at = input.closest("fieldset"); at && at !== root; at = at.parentElement?.closest("fieldset") ?? null) {
    names.unshift(at.dataset.field ?? "");
  }
  return names;
}

/** A field's name as a person reads it. Its parts are names of phrases, each with what is filled in behind `/`, or else texts.
 * @param {string} name */
export const fieldInWords = (name) => name.split("\n").map(partInWords).join(": ");

/** @param {string} part */
function partInWords(part) {
  const [path, ...filled] = part.split("/");
  /** @type {any} */
  let found = phrases;
  for (const it of path.split(".")) found = Object.hasOwn(Object(found), it) ? found[it] : undefined;
  if (typeof found === "function") return String(found(...filled));
  return typeof found === "string" ? found : part;
}

/** What each field has now.
 * @param {Element} root @returns {FormContent} */
export const contentOf = (root) => Object.fromEntries(named(root).map(([name, it]) => [name, valueOf(it)]));

/** @param {Input} input */
const valueOf = (input) => (isChoice(input) ? input.checked : input.value);

/** @param {Input} input @param {string | boolean} value */
function give(input, value) {
  if (isChoice(input)) input.checked = value === true;
  else input.value = String(value);
}

/** Puts back what was typed, and returns the names of what found no field. What comes after a field (another order's lines, a check digit)
 * hears of it as if a person had typed.
 * @param {Element} root @param {FormContent} content */
export function putBack(root, content) {
  const tell = (/** @type {Input} */ it) => it.dispatchEvent(new Event("change", { bubbles: true }));
  const differing = () => named(root).filter(([name, it]) => name in content && content[name] !== valueOf(it));
  // first what decides which other fields there are
  for (const [name, it] of differing().filter(([, it]) => it.type === "checkbox")) {
    give(it, content[name]);
    tell(it);
  }
  const others = differing();
  others.forEach(([name, it]) => give(it, content[name]));
  others.filter(([, it]) => !isChoice(it) || it.checked).forEach(([, it]) => tell(it));
  const known = new Set(named(root).map(([name]) => name));
  return Object.keys(content).filter((name) => content[name] && !known.has(name));
}
