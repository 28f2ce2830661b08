// @ts-check
// A field with its label, a hint, and what is wrong with it.

import { element, newId } from "./dom.js";

/** @typedef {{ label: string, hint?: string, value?: string, type?: string, inputmode?: string, maxlength?: number, hidden?: boolean,
 *   autocomplete?: string, name?: string, class?: string, field?: string }} FieldWords `field` is its name in drafts */

const USUAL = { type: "text", autocomplete: "off", spellcheck: "false" };

export class Field {
  /** @param {FieldWords} words */
  constructor({ label, hint, value = "", hidden = false, class: kind = "", field, ...words }) {
    const id = newId("field");
    this.label = label;
    this.hint = hint ? element("p", { class: "hint", id: `${id}-hint` }, hint) : null;
    this.wrong = element("p", { class: "wrong", id: `${id}-wrong` });
    this.input = /** @type {HTMLInputElement} */ (element("input", { id, ...USUAL, "data-field": field, ...words }));
    this.input.value = value;
    this.input.setAttribute("aria-describedby", [hint ? `${id}-hint` : "", `${id}-wrong`].join(" ").trim());
    this.element = element(
      "div",
      { class: `field ${kind}`.trim() },
      element("label", { for: id, class: hidden ? "spoken" : null }, label),
      this.input,
      this.hint,
      this.wrong,
    );
    this.input.addEventListener("input", () => this.say(""));
  }

  get value() {
    return this.input.value;
  }

  /** The value without blanks around it: for numbers and identifiers. */
  get trimmed() {
    return this.input.value.trim();
  }

  set value(value) {
    this.input.value = value;
  }

  /** Says what is wrong, or nothing.
   * @param {string} wrong */
  say(wrong) {
    this.wrong.textContent = wrong;
    if (wrong) this.input.setAttribute("aria-invalid", "true");
    else this.input.removeAttribute("aria-invalid");
  }

  get isWrong() {
    return this.wrong.textContent !== "";
  }
}

/** Brings the first wrong field of these into view and focus.
 * @param {{ isWrong: boolean, input: HTMLElement }[]} fields */
export function focusFirstWrong(fields) {
  fields.find((it) => it.isWrong)?.input.focus();
}

/** Checks a field: what `wrong` answers is said at it.
 * @param {Field} field @param {string} wrong */
export function check(field, wrong) {
  field.say(wrong);
  return !wrong;
}

/** A whole number from 0 on, without signs; NaN where the text is none.
 * @param {string} text */
export const wholeNumber = (text) => (/^\d{1,9}$/.test(text.trim()) ? Number(text) : NaN);
