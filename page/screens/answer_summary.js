// @ts-check
// Sums up an answer to an order before it is sent.

import { phrases } from "../language.js";
import { wholeNumber } from "../parts/field.js";
import { documentNumber } from "../parts/order_number.js";

/** @typedef {{ line: { line: number, quantity: number }, answer: import("../edi/response.js").Answer | null,
 *   quantity: { value: string } }} GivenAnswer */

/** @param {GivenAnswer} answer */
const change = ({ line, quantity }) => phrases.answerSummary.change(line.quantity, wholeNumber(quantity.value));

/** @param {string} order its number @param {GivenAnswer[]} waiting the lines that wait for an answer
 * @returns {import("../parts/summary.js").SummaryWords} */
export function answerSummary(order, waiting) {
  const { accepted, refused, changed, unanswered, ...says } = phrases.answerSummary;
  const given = (/** @type {GivenAnswer["answer"]} */ answer) => waiting.filter((it) => it.answer === answer);
  const ofOne = (/** @type {GivenAnswer[]} */ some) => (some.length === 1 ? ` ${change(some[0])}` : "");
  const kinds = /** @type {const} */ ([["accepted", accepted], ["refused", refused], ["changed", changed], [null, unanswered]]);
  const some = kinds.map(([answer, said]) => ({ answer, said, lines: given(answer) })).filter((it) => it.lines.length);
  // the noun is said once
  const parts = some.map(({ answer, said, lines }, at) => said(lines.length, at === 0) + (answer === "changed" ? ofOne(lines) : ""));
  const rows = [
    ...given("refused").map((it) => [says.lineRefused(it.line.line)]),
    ...given("changed").map((it) => [says.lineChanged(it.line.line, change(it))]),
  ];
  return { lead: says.lead(documentNumber(order), parts.join(", ")), rows };
}
