// @ts-check
// Sums up a despatch before it is sent.

import { phrases } from "../language.js";
import { exact } from "../parts/dom.js";
import { documentNumber } from "../parts/order_number.js";

/** @typedef {import("./pallet.js").Pallet} Pallet */

/** @param {string} document @param {Pallet[]} pallets @returns {import("../parts/summary.js").SummaryWords} */
export function despatchSummary(document, pallets) {
  const { lead, onPallet } = phrases.despatchSummary;
  const orders = [...new Set(pallets.flatMap((it) => it.contents.map(({ line }) => line.order)))];
  const pieces = pallets.reduce((sum, it) => sum + it.load.pieces, 0);
  const named = orders.flatMap((it, place) => [place ? ", " : "", documentNumber(it)]);
  const rows = pallets.map(({ number, load }) => [onPallet(number, load.pieces, load.size)]);
  return { lead: [...lead(exact(document), pallets.length, pieces, orders.length), ...named, "."], rows };
}
