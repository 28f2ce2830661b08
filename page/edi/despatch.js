// @ts-check
// DESADV: the supplier says what it has sent, on which pallets.

import { segmentText } from "./segments.js";
import { messageText } from "./envelope.js";
import { gtinAsPrinted, isSscc } from "./identifiers.js";
import { all, headerOf, lineOf, oneQuantity, orderNamed, readHeader, readUnits } from "./message.js";

/** @typedef {{ order: string, line: number | null, gtin: string, quantity: number }} DespatchLine */
/** @typedef {{ sscc: string, lines: DespatchLine[] }} DespatchUnit */
/** @typedef {import("./message.js").Header & { units: DespatchUnit[] }} Despatch */

const KIND = { type: "DESADV", code: "351", functions: ["9"], needsBuyer: false };

/** @param {import("./envelope.js").Message} message
 * @returns {Despatch | null} */
export function readDespatch(message) {
  const header = readHeader(message, KIND);
  const units = readUnits(message.segments, isSscc);
  const named = orderNamed(headerOf(message.segments), false);
  if (!header || !units?.length || named === null || !all(message.segments, "LIN").length) return null;
  const read = units.map(({ sscc, groups }) => ({ sscc, lines: groups.map((it) => despatchLine(it, named?.order)) }));
  return read.some((it) => it.lines.includes(null)) ? null : { ...header, units: /** @type {DespatchUnit[]} */ (read) };
}

/** @param {import("./segments.js").Segment[]} group @param {string} [ofHeader] @returns {DespatchLine | null} */
function despatchLine(group, ofHeader) {
  const line = lineOf(group);
  const named = orderNamed(group, true);
  const quantity = oneQuantity(group, "12");
  const order = named ? named.order : ofHeader;
  return !line || named === null || !order || !quantity ? null : { order, line: named?.line ?? null, gtin: line.gtin, quantity };
}

/** The message that announces pallets; each line names its order and line.
 * @param {{ document: string, date: string, buyer: string, supplier: string, units: DespatchUnit[] }} despatch */
export function despatchText({ document, date, buyer, supplier, units }) {
  let lines = 0;
  const pallets = units.flatMap((unit, place) => [
    segmentText("CPS", String(place + 1)),
    segmentText("PAC", "1"),
    segmentText("PCI", "33E"),
    segmentText("GIN", "BJ", unit.sscc),
    ...unit.lines.flatMap((it) => [
      segmentText("LIN", String((lines += 1)), "", [gtinAsPrinted(it.gtin), "SRV"]),
      segmentText("QTY", ["12", String(it.quantity)]),
      segmentText("RFF", ["ON", it.order, String(it.line ?? "")]),
    ]),
  ]);
  return messageText("DESADV", "EAN007", [
    segmentText("BGM", "351", document, "9"),
    segmentText("DTM", ["137", date, "102"]),
    segmentText("NAD", "BY", [buyer, "", "9"]),
    segmentText("NAD", "SU", [supplier, "", "9"]),
    ...pallets,
    segmentText("CNT", ["2", String(lines)]),
  ]);
}
