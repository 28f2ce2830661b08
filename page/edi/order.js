// @ts-check
// ORDERS: the retailer orders.

import { hasSummary, lineGroups, lineOf, oneQuantity, readHeader } from "./message.js";

/** @typedef {{ line: number, gtin: string, quantity: number }} OrderLine */
/** @typedef {import("./message.js").Header & { lines: OrderLine[] }} Order */

const KIND = { type: "ORDERS", code: "220", functions: ["9"], needsBuyer: true };

/** @param {import("./envelope.js").Message} message
 * @returns {Order | null} */
export function readOrder(message) {
  const header = readHeader(message, KIND);
  const groups = lineGroups(message.segments);
  if (!header || !hasSummary(message.segments) || !groups.length) return null;
  const lines = groups.map((group) => ({ line: lineOf(group), quantity: oneQuantity(group, "21") }));
  const numbers = new Set(lines.map((it) => it.line?.number));
  if (numbers.size !== lines.length || lines.some((it) => !it.line || !it.quantity)) return null;
  return { ...header, lines: lines.map((it) => ({ line: it.line?.number ?? 0, gtin: it.line?.gtin ?? "", quantity: it.quantity ?? 0 })) };
}
