// @ts-check
// Says in words what is cancelled.

import { phrases } from "../language.js";
import { numberInWords } from "./order_number.js";
import { clockTime } from "./sending_panel.js";

/** What is sent, or typed and not complete yet: a number that is missing is NaN.
 * @param {{ order: string, line: number, quantity: number }} cancellation */
export function cancellationInWords({ order, line, quantity }) {
  const { yours, unfinished } = phrases.cancellationWords;
  return order && line && quantity ? yours(quantity, numberInWords(order), line) : unfinished;
}

/** Several at once, such as `3 lines of 2 orders, 52 pieces in all`.
 * @param {{ order: string, quantity: number }[]} cancellations */
export function severalInWords(cancellations) {
  const orders = new Set(cancellations.map((it) => it.order)).size;
  const pieces = cancellations.reduce((all, it) => all + it.quantity, 0);
  return phrases.cancellationWords.several(cancellations.length, orders, pieces);
}

/** What is wrong with a quantity, or "". What is open never rises, so what was too much once stays so.
 * @param {number} quantity @param {number} open what the hub said @param {number} at when it said so */
export function tooMuchInWords(quantity, open, at) {
  if (quantity <= open) return "";
  return open ? phrases.cancel.tooMuch(open, clockTime(at)) : phrases.cancel.noneOpen(clockTime(at));
}
