// @ts-check
// The choice of the page's language, each language by its own name.

import { TABLES, language, phrases } from "../language.js";
import { element, newId } from "./dom.js";

/** @param {(language: string) => void} choose */
export function languageChoice(choose) {
  const id = newId("language");
  const options = Object.entries(TABLES).map(([name, { languageChoice: { own } }]) =>
    element("option", { value: name, lang: name, selected: name === language }, own),
  );
  const select = /** @type {HTMLSelectElement} */ (element("select", { id }, ...options));
  select.addEventListener("change", () => choose(select.value));
  return element("div", { class: "language no-print" }, element("label", { for: id }, phrases.languageChoice.label), select);
}
