// @ts-check
// ORDRSP: the supplier answers an order.

import { segmentText } from "./segments.js";
import { messageText } from "./envelope.js";
import { gtinAsPrinted } from "./identifiers.js";
import { all, hasSummary, headerOf, lineGroups, lineOf, oneQuantity, orderNamed, readHeader } from "./message.js";

/** @typedef {"accepted" | "refused" | "changed"} Answer */
/** @typedef {{ line: number | null, gtin: string, answer: Answer, quantity: number }} AnswerLine */
/** @typedef {import("./message.js").Header & { order: string, lines: AnswerLine[] }} Response */

const KIND = { type: "ORDRSP", code: "231", functions: ["4", "9", "27", "29"], needsBuyer: true };
/** @type {Record<string, Answer>} */
const ANSWERS = { 3: "changed", 5: "accepted", 6: "changed", 7: "refused" };
const ACTIONS = { changed: "3", accepted: "5", refused: "7" };

/** @param {import("./envelope.js").Message} message
 * @returns {Response | null} */
export function readResponse(message) {
  const header = readHeader(message, KIND);
  const named = orderNamed(headerOf(message.segments), false);
  if (!header || !named || !hasSummary(message.segments)) return null;
  const ofAll = ["27", "29"].includes(header.function);
  const groups = ofAll ? [] : lineGroups(message.segments);
  const lines = groups.map((group) => answerLine(group, named.order));
  if ((!ofAll && !lines.length) || lines.includes(null)) return null;
  return { ...header, order: named.order, lines: /** @type {AnswerLine[]} */ (lines) };
}

/** @param {import("./segments.js").Segment[]} group @param {string} order @returns {AnswerLine | null} */
function answerLine(group, order) {
  const line = lineOf(group);
  const named = orderNamed(group, true);
  const answer = ANSWERS[line?.action ?? ""];
  if (!line || !answer || named === null || (named && named.order !== order)) return null;
  const quantity = answer === "changed" ? oneQuantity(group, all(group, "QTY", "113").length ? "113" : "21") : 0;
  return quantity === null ? null : { line: named?.line ?? null, gtin: line.gtin, answer, quantity };
}

/** The message that answers an order. Function 29 accepts and 27 refuses all that still waits, without lines; function 4, which the
 * page sends, names each line.
 * @param {{ document: string, date: string, order: string, buyer: string, supplier: string, function: string,
 *   lines: AnswerLine[] }} response */
export function responseText({ document, date, order, buyer, supplier, function: purpose, lines }) {
  const named = lines.flatMap((it, place) => [
    segmentText("LIN", String(place + 1), ACTIONS[it.answer], [gtinAsPrinted(it.gtin), "SRV"]),
    ...(it.answer === "changed" ? [segmentText("QTY", ["113", String(it.quantity)])] : []),
    segmentText("RFF", ["ON", order, String(it.line ?? "")]),
  ]);
  return messageText("ORDRSP", "EAN009", [
    segmentText("BGM", "231", document, purpose),
    segmentText("DTM", ["137", date, "102"]),
    segmentText("RFF", ["ON", order]),
    segmentText("NAD", "BY", [buyer, "", "9"]),
    segmentText("NAD", "SU", [supplier, "", "9"]),
    ...named,
    segmentText("UNS", "S"),
    ...(lines.length ? [segmentText("CNT", ["2", String(lines.length)])] : []),
  ]);
}
