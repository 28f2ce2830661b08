// @ts-check
// Puts into words what an order says beside its numbers and quantities.

import { dateInWords } from "../edi/dates.js";
import { phrases } from "../language.js";
import { element, exact, figure } from "../parts/dom.js";
import { oneALine } from "../parts/raw.js";

/** @typedef {import("../edi/order_details.js").Details} Details */
/** @typedef {import("../edi/order_details.js").Party} Party */
/** @typedef {import("../edi/order_details.js").Price} Price */
/** @typedef {import("../edi/order_details.js").Pack} Pack */
/** @typedef {import("../edi/order_details.js").Moment} Moment */

/** @param {Moment} date @returns {[string, string]} */
export const dateRow = ({ kind, text, format }) => [phrases.orderDates[kind], dateInWords(text, format)];

/** @param {Party} party */
export const partyInWords = ({ gln, address }) => [...address, gln].filter(Boolean).join(", ");

/** @param {Party} party @returns {[string, import("../parts/dom.js").Child]} */
export const partyRow = (party) => [phrases.orderParties[party.kind], exact(partyInWords(party))];

/** @param {Price} price @param {string} currency */
export function priceInWords({ kind, amount, type, basis, unit }, currency) {
  const per = basis || unit ? phrases.orderWords.per([basis, unit].filter(Boolean).join(" ")) : "";
  const words = [[amount, currency].filter(Boolean).join(" "), phrases.prices[kind], phrases.prices[type], per];
  return words.filter(Boolean).join(", ");
}

/** @param {Pack} pack */
export function packInWords({ kind, quantity, type }) {
  const number = /^\d+$/.test(quantity) ? figure(Number(quantity)) : quantity;
  const { consumerUnits, inEach, packages, code } = phrases.orderWords;
  if (kind === "59") return consumerUnits(number, quantity === "1");
  if (kind === "52") return inEach(number);
  const some = packages(number, quantity === "1");
  return type ? `${some} (${phrases.packages[type] ?? code(type)})` : some;
}

/** What the page does not read, as it is written.
 * @param {string[]} raw */
export const rawSegments = (raw) => element("code", { class: "unread exact" }, oneALine(raw.join("")));

/** What is said of a line beside its article, pack and price.
 * @param {Details} details */
export function remarks({ dates, parties, contracts, texts, raw }) {
  const paragraph = (/** @type {import("../parts/dom.js").Child[]} */ ...words) => element("p", {}, ...words);
  const rows = [...dates.map(dateRow), ...parties.map(partyRow)];
  return [
    ...rows.map(([term, what]) => paragraph(`${term}: `, what)),
    ...contracts.map((it) => paragraph(`${phrases.order.contract}: `, exact(it))),
    ...texts.map((it) => paragraph(exact(it))),
    ...(raw.length ? [paragraph(rawSegments(raw))] : []),
  ];
}
