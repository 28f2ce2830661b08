// @ts-check
// Reads what is on which pallet from rows of a spreadsheet: order, line, quantity and pallet.

import { isSscc } from "../edi/identifiers.js";
import { ssccOf } from "../edi/sscc.js";
import { ALL_PHRASES, phrases } from "../language.js";
import { placesOfTitles, readRows } from "../parts/csv.js";
import { wholeNumber } from "../parts/field.js";

/** @typedef {{ order: string, line: number }} Line */
/** @typedef {{ place: number, quantity: number, pallet: number | string }} PalletRow the place of the line among those that are known; the
 *   pallet by its number in the form or by its SSCC */

/** The most pallets of a form. */
export const MOST_PALLETS = 500;

const TITLES = ALL_PHRASES.map(({ rows }) => [rows.order, rows.line, rows.quantity, rows.pallet]);
const WITHOUT_TITLES = [0, 1, 2, 3];

/** What the rows say, and what is wrong with each row that does not fit. A row without a quantity says nothing.
 * @param {string} text @param {Line[]} lines those that have something open @param {string[]} pallets the SSCCs of those in the form
 * @returns {{ rows: PalletRow[], wrong: string[] }} */
export function readPalletRows(text, lines, pallets) {
  const all = readRows(text);
  const titles = all[0].map((it) => it.toLowerCase());
  const named = placesOfTitles(titles, TITLES);
  const hasTitles = named.some((it) => it >= 0);
  if (hasTitles && named.includes(-1)) return { rows: [], wrong: [phrases.palletRows.nameTheColumns] };
  const places = hasTitles ? named : WITHOUT_TITLES;
  const find = finder(lines);
  /** @type {{ rows: PalletRow[], wrong: string[] }} */
  const read = { rows: [], wrong: [] };
  /** @type {Map<string, number>} */
  const seen = new Map();
  all.forEach((cells, at) => {
    if ((hasTitles && at === 0) || cells.every((it) => it === "")) return;
    const row = readRow(places.map((it) => cells[it] ?? ""), find);
    const name = row && typeof row === "object" ? `${row.place} ${row.pallet}` : "";
    const wrong = typeof row === "string" ? row : seen.has(name) ? phrases.palletRows.twice(seen.get(name) ?? 0) : "";
    if (wrong) read.wrong.push(phrases.common.row(at + 1, wrong));
    else if (row && typeof row === "object") read.rows.push(row);
    if (name && !wrong) seen.set(name, at + 1);
  });
  if (!read.wrong.length) read.wrong = wrongNumbers(read.rows, pallets);
  return read.wrong.length ? { rows: [], wrong: read.wrong } : read;
}

// Spreadsheets and this reader leave out blanks at the end of a number, so orders that differ in these alone cannot be told apart.
/** @param {Line[]} lines @returns {(order: string, line: number) => number | string} the place of a line, or what is wrong */
function finder(lines) {
  /** @type {Map<string, Set<string>>} */
  const orders = new Map();
  const key = (/** @type {string} */ order, /** @type {number} */ line) => `${order}\n${line}`;
  for (const { order } of lines) orders.set(order.trim(), (orders.get(order.trim()) ?? new Set()).add(order));
  const places = new Map(lines.map((it, place) => [key(it.order.trim(), it.line), place]));
  return (order, line) => {
    const same = orders.get(order);
    if (!same) return phrases.palletRows.noOrder(order);
    if (same.size > 1) return phrases.palletRows.severalOrders(order);
    return places.get(key(order, line)) ?? phrases.palletRows.noLine(order, line);
  };
}

/** What a row says, null if it has no quantity, or what is wrong with it.
 * @param {string[]} cells @param {ReturnType<typeof finder>} find
 * @returns {PalletRow | string | null} */
function readRow([order, line, quantity, pallet], find) {
  if (quantity === "" || wholeNumber(quantity) === 0) return null;
  if (!order) return phrases.palletRows.orderMissing;
  if (Number.isNaN(wholeNumber(line))) return line ? phrases.common.notALineNumber(line) : phrases.palletRows.lineMissing;
  const place = find(order, wholeNumber(line));
  if (typeof place === "string") return place;
  if (Number.isNaN(wholeNumber(quantity))) return phrases.palletRows.notWhole(quantity);
  const which = readPallet(pallet);
  return which === null ? wrongPallet(pallet) : { place, quantity: wholeNumber(quantity), pallet: which };
}

/** @param {string} text */
function readPallet(text) {
  const number = /^\d{1,3}$/.test(text) ? Number(text) : 0;
  if (number > 0 && number <= MOST_PALLETS) return number;
  return isSscc(ssccOf(text)) ? ssccOf(text) : null;
}

/** @param {string} text */
function wrongPallet(text) {
  if (!text) return phrases.palletRows.palletMissing;
  if (/^\d[.,]\d+E\+\d+$/i.test(text)) return phrases.palletRows.shortened(text);
  if (/^\d{17,18}$/.test(ssccOf(text))) return phrases.palletRows.notAnSscc(text);
  return phrases.palletRows.notAPallet(text, MOST_PALLETS);
}

/** @param {PalletRow[]} rows @param {string[]} pallets */
function wrongNumbers(rows, pallets) {
  const names = [...new Set(rows.map((it) => it.pallet))];
  const most = Math.max(0, ...names.map((it) => (typeof it === "number" ? it : 0)));
  const gap = Array.from({ length: most }, (_, place) => place + 1).find((it) => it > pallets.length && !names.includes(it));
  if (gap) return [phrases.palletRows.gap(gap)];
  const others = names.filter((it) => typeof it === "string" && !pallets.includes(it));
  return Math.max(pallets.length, most) + others.length > MOST_PALLETS ? [phrases.palletRows.tooMany(MOST_PALLETS)] : [];
}
