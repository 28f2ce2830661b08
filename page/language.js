// @ts-check
// Knows the language of the page: the one that was chosen in this browser, or else the first of the browser's own that the page speaks.
// Every text of the page is in `phrases`, which follows the choice.

import { keepLanguage, keptLanguage } from "./kept_language.js";
import { de } from "./words/de.js";
import { en } from "./words/en.js";
import { fr } from "./words/fr.js";
import { nl } from "./words/nl.js";
import { takeStyle } from "./words/figures.js";

/** @typedef {typeof en} Phrases */

/** A table with the English text wherever it has none.
 * @template {object} Table @param {Table} english @param {any} table @returns {Table} */
export function completed(english, table) {
  const isGroup = (/** @type {unknown} */ it) => typeof it === "object" && it !== null && !Array.isArray(it);
  const pairs = Object.entries(english).map(([key, text]) => {
    const own = table?.[key];
    return [key, isGroup(text) ? completed(text, own) : own ?? text];
  });
  return Object.fromEntries(pairs);
}

/** @type {Record<string, Phrases>} */
export const TABLES = { en, de: completed(en, de), fr: completed(en, fr), nl: completed(en, nl) };

/** The phrases of all languages, for what people may write in any of them. */
export const ALL_PHRASES = Object.values(TABLES);

/** The phrases of the page's language. */
export let phrases = en;
export let language = "en";

/** The style of numbers and dates: the browser's for this language, if it has one.
 * @param {string} wanted */
const styleOf = (wanted) => navigator.languages.find((it) => it.split("-")[0] === wanted) ?? (wanted === "en" ? "en-GB" : wanted);

/** @param {string} wanted */
function speak(wanted) {
  [language, phrases] = [wanted, TABLES[wanted]];
  takeStyle(styleOf(wanted));
  document.documentElement.lang = wanted;
}

/** Begins in the language that was chosen, or else in the browser's. */
export function beginLanguage() {
  const known = [keptLanguage(), ...navigator.languages.map((it) => it.split("-")[0])].find((it) => Object.hasOwn(TABLES, it ?? ""));
  speak(known ?? "en");
}

/** @param {string} wanted */
export function chooseLanguage(wanted) {
  keepLanguage(wanted);
  speak(wanted);
}
