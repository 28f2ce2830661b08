// @ts-check
// What the hub replies. A line that is not understood is handed on raw, and never guessed at.

import { phrases } from "../language.js";

/** @typedef {{ reference: string, type: string, outcome: "accepted" | "repeated" | "refused", code: string }} MessageReply */
/** @typedef {{ number: number, type: string, document: string }} MailEntry */
/** @typedef {"W" | "A" | "N" | "C"} AnswerLetter */
/** @typedef {{ order: string, line: number, gtin: string, answer: AnswerLetter, ordered: number, open: number, refused: number,
 *   cancelled: number, despatched: number, unsure?: number }} StatusLine an order of which it is unsure has a number from 1 */
/** @typedef {{ sscc: string, gtin: string, state: "A" | "R" | "C", despatched: number, accepted: number, returned: number,
 *   destroyed: number, difference: number }} StatusPallet */

/** The lines of a reply, without the line feed that ends each.
 * @param {string} text */
const linesOf = (text) => text.replace(/\n$/, "").split("\n");

/** The reply to an upload: of a refused interchange its code, else what became of each message; null where it is no such reply.
 * @param {string} text
 * @returns {{ reference: string, code: string, messages: MessageReply[] } | null} */
export function readUpload(text) {
  const [first, ...rest] = linesOf(text);
  const refused = /^refused (E\d\d)$/.exec(first);
  if (refused && !rest.length) return { reference: "", code: refused[1], messages: [] };
  const head = /^interchange (.{1,14}) messages (\d+)$/.exec(first);
  const messages = rest.map(messageReply);
  if (!head || messages.length !== Number(head[2]) || messages.includes(null)) return null;
  return { reference: head[1], code: "", messages: /** @type {MessageReply[]} */ (messages) };
}

/** @param {string} line @returns {MessageReply | null} */
function messageReply(line) {
  const found = /^(.{1,14}) ([^ ]{1,6}) (?:(accepted|repeated)|refused ([MB]\d\d))$/.exec(line);
  if (!found) return null;
  const outcome = /** @type {MessageReply["outcome"]} */ (found[3] ?? "refused");
  return { reference: found[1], type: found[2], outcome, code: found[4] ?? "" };
}

/** The verdict on the one message of an upload.
 * @param {string} text
 * @returns {{ outcome: MessageReply["outcome"], code: string } | null} */
export function readUploadOfOne(text) {
  const read = readUpload(text);
  if (read?.code) return { outcome: "refused", code: read.code };
  return read?.messages.length === 1 ? read.messages[0] : null;
}

/** The reply to a cancellation.
 * @param {string} text
 * @returns {{ outcome: MessageReply["outcome"], code: string } | null} */
export function readCancellation(text) {
  const found = /^(?:(accepted|repeated)|refused (B\d\d))\n$/.exec(text);
  return found && { outcome: /** @type {MessageReply["outcome"]} */ (found[1] ?? "refused"), code: found[2] ?? "" };
}

/** A list of a mailbox.
 * @param {string} text
 * @returns {{ entries: MailEntry[], more: boolean, raw: string[] }} */
export function readList(text) {
  const lines = linesOf(text);
  const last = lines[lines.length - 1];
  const ends = last === "end" || last === "more";
  const read = (ends ? lines.slice(0, -1) : lines).map((line) => ({ line, found: /^ *(\d{1,14}) ([A-Z]{6}) (.{1,35})$/.exec(line) }));
  return {
    entries: read.flatMap(({ found }) => (found ? [{ number: Number(found[1]), type: found[2], document: found[3] }] : [])),
    more: last === "more",
    raw: read.flatMap(({ line, found }) => (found ? [] : [line])),
  };
}

const LINE = /^L (.{35}) ([ \d]{6}) (\d{14}) ([WANC])((?: [ \d]{9}){5})$/;
const PALLET = /^P (\d{18}) (\d{14}) ([ARC])((?: [ \d]{14}){4}) ( *[+-]\d+)$/;

/** A status report.
 * @param {string} text
 * @returns {{ lines: StatusLine[], pallets: StatusPallet[], raw: string[] }} */
export function readStatus(text) {
  /** @type {{ lines: StatusLine[], pallets: StatusPallet[], raw: string[] }} */
  const status = { lines: [], pallets: [], raw: [] };
  const rows = linesOf(text);
  for (const row of rows[rows.length - 1] === "end" ? rows.slice(0, -1) : [...rows, phrases.replies.noEnd]) {
    const line = LINE.exec(row);
    const pallet = PALLET.exec(row);
    if (line) status.lines.push(statusLine(line));
    else if (pallet) status.pallets.push(statusPallet(pallet));
    else status.raw.push(row);
  }
  return status;
}

/** @param {string} columns @param {number} width */
const numbers = (columns, width) => (columns.match(new RegExp(`.{${width}}`, "g")) ?? []).map(Number);

/** @param {RegExpExecArray} found @returns {StatusLine} */
function statusLine([, order, line, gtin, answer, columns]) {
  const [ordered, open, refused, cancelled, despatched] = numbers(columns, 10);
  const letter = /** @type {AnswerLetter} */ (answer);
  return { order: order.trimEnd(), line: Number(line), gtin, answer: letter, ordered, open, refused, cancelled, despatched };
}

/** @param {RegExpExecArray} found @returns {StatusPallet} */
function statusPallet([, sscc, gtin, state, columns, difference]) {
  const [despatched, accepted, returned, destroyed] = numbers(columns, 15);
  const letter = /** @type {StatusPallet["state"]} */ (state);
  return { sscc, gtin, state: letter, despatched, accepted, returned, destroyed, difference: Number(difference) };
}
