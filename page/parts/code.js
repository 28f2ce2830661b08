// @ts-check
// A code of the hub, with what it means, its usual cause, and what to do.

import { phrases } from "../language.js";
import { element } from "./dom.js";

/** @param {string} code */
export const wordsOf = (code) => phrases.codes[code] ?? phrases.code.unknown;

/** @param {string} code @param {string} [known] what exactly is wrong, which is said first */
export function codeInWords(code, known = "") {
  const { meaning, cause, remedy } = wordsOf(code);
  const first = known && [" ", element("strong", {}, known)];
  const words = ` ${phrases.code.inWords(meaning, cause, remedy)}`;
  return element("span", { class: "code-words" }, element("strong", { class: "code" }, code), first, words);
}
