// @ts-check
// A difference, told by its sign, by a word for those who listen, and by colour.

import { phrases } from "../language.js";
import { element, figure } from "./dom.js";

/** @param {number} number */
export function difference(number) {
  const kind = number < 0 ? "less" : number > 0 ? "more" : "even";
  const sign = number < 0 ? "−" : number > 0 ? "+" : "±";
  const word = { less: phrases.difference.missing, more: phrases.difference.tooMany, even: "" }[kind];
  const spoken = word ? element("small", {}, ` ${word}`) : null;
  return element("span", { class: `difference ${kind}` }, `${sign}${figure(Math.abs(number))}`, spoken);
}
