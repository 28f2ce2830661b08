// @ts-check
// Filters the rows of a table by a text and a choice.

import { phrases } from "../language.js";
import { element, newId } from "./dom.js";
import { Field } from "./field.js";

/** Whether the words have the text in them; capitals and small letters count as the same.
 * @param {string} text @param {string[]} words */
const includes = (text, words) => words.join(" ").toLowerCase().includes(text.toLowerCase());

/** @template Row */
export class Filter {
  /** @param {{ label: string, kinds: [string, string, (row: Row) => boolean][], words: (row: Row) => string[], changed: () => void,
   *   value?: string, kind?: string }} words `value` and `kind` are what it begins with */
  constructor({ label, kinds, words, changed, value = "", kind = kinds[0][0] }) {
    this.kinds = kinds;
    this.words = words;
    this.text = new Field({ label, type: "search", value });
    const id = newId("kind");
    const options = kinds.map(([name, said]) => element("option", { value: name, selected: name === kind }, said));
    this.select = /** @type {HTMLSelectElement} */ (element("select", { id }, ...options));
    this.text.input.addEventListener("input", changed);
    this.select.addEventListener("change", changed);
    const choice = element("div", { class: "field" }, element("label", { for: id }, phrases.filter.shown), this.select);
    this.element = element("div", { class: "filter no-print" }, this.text.element, choice);
  }

  /** The rows that fit.
   * @param {Row[]} rows */
  of(rows) {
    const fits = this.kinds[this.select.selectedIndex][2];
    return rows.filter((it) => fits(it) && includes(this.text.trimmed, this.words(it)));
  }
}
