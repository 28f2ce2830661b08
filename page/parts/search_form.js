// @ts-check
// Asks for a text that is searched for in what was fetched of all suppliers.

import { phrases } from "../language.js";
import { element } from "./dom.js";
import { Field, check, focusFirstWrong } from "./field.js";

const SHORTEST = 3;

/** What is wrong with a text to search for.
 * @param {string} text */
export const wrongSearch = (text) => (text.trim().length >= SHORTEST ? "" : phrases.searchForm.tooShort(SHORTEST));

/** @param {(to: string) => void} go @param {string} [value] @param {Node} [beside] */
export function searchForm(go, value = "", beside) {
  const field = new Field({ label: phrases.searchForm.label, type: "search", value, maxlength: 60 });
  if (value) check(field, wrongSearch(value));
  const submit = element("button", { type: "submit" }, phrases.common.searchAllSuppliers);
  const ask = (/** @type {Event} */ event) => {
    event.preventDefault();
    if (check(field, wrongSearch(field.value))) go(`search/${encodeURIComponent(field.trimmed)}`);
    else focusFirstWrong([field]);
  };
  return element("form", { class: "filter no-print", role: "search", novalidate: true, onsubmit: ask }, field.element, submit, beside);
}
