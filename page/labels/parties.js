// @ts-check
// Names who sends a despatch and where it goes, by the orders that this tab has read.

import { detailsOfEntry } from "../articles.js";

/** @typedef {import("../edi/despatch.js").Despatch} Despatch */
/** @typedef {import("../session.js").Session} Session */
/** @typedef {import("../edi/order_details.js").Party} Party */

/** The numbers of the orders of these lines.
 * @param {{ order: string }[]} lines */
export const ordersIn = (lines) => new Set(lines.map((it) => it.order));

/** @param {Party} party */
const inLines = ({ gln, address }) => [...address, gln].filter(Boolean).join("\n");

/** @param {Session} session @param {Despatch} despatch @param {{ order: string }[]} lines */
export function partiesOf(session, despatch, lines) {
  const orders = ordersIn(lines);
  const entries = [...session.entries.values()].filter((it) => it.order && orders.has(it.order.document));
  const headers = entries.map((it) => detailsOfEntry(it)?.header.parties ?? []);
  // only what all of these orders say alike
  const common = (/** @type {string} */ kind) => {
    const said = new Set(headers.map((it) => it.filter((party) => party.kind === kind).map(inLines).join("\n")));
    return said.size === 1 && entries.length === orders.size ? [...said][0] : "";
  };
  return { from: common("SU") || despatch.supplier, to: common("DP") || common("BY") || despatch.buyer };
}
