// @ts-check
// RECADV: the retailer says what it has received.

import { isSscc } from "./identifiers.js";
import { all, lineOf, quantityOf, readHeader, readUnits } from "./message.js";

/** @typedef {{ gtin: string, accepted: number, returned: number, destroyed: number }} ReceiptLine */
/** @typedef {{ sscc: string, lines: ReceiptLine[] }} ReceiptUnit */
/** @typedef {import("./message.js").Header & { replaces: boolean, units: ReceiptUnit[] }} Receipt */

const KIND = { type: "RECADV", code: "632", functions: ["9", "5"], needsBuyer: false };
const KINDS = ["194", "195", "196"];
const GREATEST_SUM = 999_999_999;

/** @param {import("./envelope.js").Message} message
 * @returns {Receipt | null} */
export function readReceipt(message) {
  const header = readHeader(message, KIND);
  const units = readUnits(message.segments, isSscc);
  if (!header || !units?.length) return null;
  const read = units.map(({ sscc, groups }) => ({ sscc, lines: groups.map(receiptLine) }));
  if (read.some((it) => it.lines.includes(null))) return null;
  const right = /** @type {ReceiptUnit[]} */ (read);
  return right.every(isWithinSums) ? { ...header, replaces: header.function === "5", units: right } : null;
}

/** @param {import("./segments.js").Segment[]} group @returns {ReceiptLine | null} */
function receiptLine(group) {
  const line = lineOf(group);
  const found = KINDS.map((kind) => all(group, "QTY", kind));
  const [accepted, returned, destroyed] = found.map((it) => (it.length ? quantityOf(it[0]) : 0));
  const once = found.every((it) => it.length <= 1) && found.some((it) => it.length);
  if (!line || !once || accepted === null || returned === null || destroyed === null) return null;
  return { gtin: line.gtin, accepted, returned, destroyed };
}

/** A unit's lines as sums for each article.
 * @param {ReceiptUnit} unit
 * @returns {Map<string, ReceiptLine>} */
export function sumsOf(unit) {
  const sums = new Map();
  for (const line of unit.lines) {
    const { accepted, returned, destroyed } = sums.get(line.gtin) ?? { accepted: 0, returned: 0, destroyed: 0 };
    sums.set(line.gtin, {
      gtin: line.gtin,
      accepted: accepted + line.accepted,
      returned: returned + line.returned,
      destroyed: destroyed + line.destroyed,
    });
  }
  return sums;
}

/** @param {ReceiptUnit} unit */
const isWithinSums = (unit) => [...sumsOf(unit).values()].every((it) => Math.max(it.accepted, it.returned, it.destroyed) <= GREATEST_SUM);
