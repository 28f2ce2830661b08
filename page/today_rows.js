// @ts-check
// Works out what waits for a supplier today from the status and the entries that were looked up.

import { dayOf, requestedDay } from "./edi/requested.js";
import { withExactOrders } from "./hub/order_numbers.js";

/** @typedef {import("./hub/replies.js").StatusLine} StatusLine */
/** @typedef {import("./hub/replies.js").StatusPallet} StatusPallet */
/** @typedef {{ day: string, isWanted: boolean, isLate: boolean }} Due a day as CCYYMMDD, or ""; `isWanted` if the buyer named it */
/** @typedef {Due & { order: string, unsure?: number, entry: number | null, lines: number, open: number }} OrderRow */
/** @typedef {Due & { line: StatusLine, entry: number | null }} LineRow */
/** @typedef {{ sscc: string, articles: number, pieces: number }} PalletRow */
/** @typedef {{ pallet: StatusPallet, advice: number | null }} ShortRow */
/** @typedef {{ orders: OrderRow[], lines: LineRow[], pallets: PalletRow[], short: ShortRow[] }} Rows */

/** The orders that Today has to know, by their numbers in the status.
 * @param {{ lines: StatusLine[] }} status */
export const ordersWanted = ({ lines }) => new Set(lines.filter((it) => it.answer === "W" || it.open > 0).map((it) => it.order.trimEnd()));

/** @param {StatusPallet} it */
const isShort = (it) => it.state !== "A" && it.difference < 0;

/** @param {{ pallets: StatusPallet[] }} status */
export const hasShort = ({ pallets }) => pallets.some(isShort);

/** What waits, overdue first and then by day.
 * @param {import("./session.js").Session} session @param {{ lines: StatusLine[], pallets: StatusPallet[] }} status
 * @param {string} today CCYYMMDD
 * @returns {Rows} */
export function rowsOf(session, { lines, pallets }, today) {
  const entryOf = session.mail.entryOf();
  const exact = withExactOrders(lines, session.orders);
  const due = (/** @type {StatusLine} */ line) => {
    const entry = line.unsure ? null : entryOf(line.order);
    return { entry, ...dueOf(entry === null ? undefined : session.entries.get(entry), today) };
  };
  const open = exact.filter((it) => it.open > 0 && it.answer !== "W");
  return {
    orders: inTurn(grouped(exact.filter((it) => it.answer === "W")).map((it) => ({ ...orderRow(it), ...due(it[0]) }))),
    lines: inTurn(open.map((line) => ({ line, ...due(line) }))),
    pallets: announced(pallets.filter((it) => it.state === "A")),
    short: shortRows(session, pallets.filter(isShort)),
  };
}

/** When an order is due: on the day that it names, else it goes by its own date.
 * @param {import("./session.js").Entry | undefined} entry @param {string} today
 * @returns {Due} */
function dueOf(entry, today) {
  const message = entry?.interchange?.messages[0];
  if (!entry?.order || !message) return { day: "", isWanted: false, isLate: false };
  const wanted = requestedDay(message);
  if (wanted) return { day: wanted, isWanted: true, isLate: wanted < today };
  return { day: dayOf(entry.order.date, entry.order.format), isWanted: false, isLate: false };
}

/** Overdue ones first, then by day; those without a day last.
 * @template {Due} Row @param {Row[]} rows */
export function inTurn(rows) {
  const rank = (/** @type {Row} */ it) => Number(`${it.isLate ? 0 : 1}${it.day || "99999999"}`);
  return [...rows].sort((a, b) => rank(a) - rank(b));
}

/** The lines of each order.
 * @param {StatusLine[]} lines */
function grouped(lines) {
  /** @type {Map<string, StatusLine[]>} */
  const orders = new Map();
  for (const it of lines) {
    const name = `${it.order}\n${it.unsure ?? ""}`;
    orders.set(name, [...(orders.get(name) ?? []), it]);
  }
  return [...orders.values()];
}

/** @param {StatusLine[]} lines */
function orderRow(lines) {
  const [{ order, unsure }] = lines;
  return { order, unsure, lines: lines.length, open: lines.reduce((all, it) => all + it.open, 0) };
}

/** @param {StatusPallet[]} pallets a row for each article @returns {PalletRow[]} */
function announced(pallets) {
  /** @type {Map<string, PalletRow>} */
  const rows = new Map();
  for (const { sscc, despatched } of pallets) {
    const { articles, pieces } = rows.get(sscc) ?? { articles: 0, pieces: 0 };
    rows.set(sscc, { sscc, articles: articles + 1, pieces: pieces + despatched });
  }
  return [...rows.values()];
}

// What is short waits until its receiving advice is marked as taken. As long as not all new advices are known, all that is short waits.
/** @param {import("./session.js").Session} session @param {StatusPallet[]} pallets @returns {ShortRow[]} */
function shortRows({ mail }, pallets) {
  if (mail.isComplete === null) return [];
  const advices = mail.advices();
  const rows = pallets.map((pallet) => ({ pallet, advice: advices.get(pallet.sscc) ?? null }));
  return mail.isComplete ? rows.filter((it) => it.advice !== null) : rows;
}
