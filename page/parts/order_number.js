// @ts-check
// An order number, with words for the blanks at its end, which nobody sees.

import { phrases } from "../language.js";
import { element, exact } from "./dom.js";

/** @param {string} number */
function endInWords(number) {
  const blanks = number.length - number.trimEnd().length;
  return blanks ? ` ${phrases.orderNumber.blanksAtEnd(blanks)}` : "";
}

/** The number of a document as a text.
 * @param {string} number */
export const numberInWords = (number) => (endInWords(number) ? number.trimEnd() + endInWords(number) : number);

/** The number of a document as an element: its own characters exactly.
 * @param {string} number */
export function documentNumber(number) {
  const end = endInWords(number);
  return end ? element("span", {}, exact(number), element("small", {}, end)) : exact(number);
}

/** The order number of a status line.
 * @param {{ order: string, unsure?: number }} line */
export function orderNumber({ order, unsure }) {
  return unsure ? element("span", {}, exact(order), element("small", {}, unsureInWords(unsure))) : documentNumber(order);
}

/** The same as a text.
 * @param {{ order: string, unsure?: number }} line */
export const orderInWords = ({ order, unsure }) => (unsure ? order + unsureInWords(unsure) : numberInWords(order));

/** @param {number} place */
const unsureInWords = (place) => ` ${phrases.orderNumber.unsure(place)}`;
