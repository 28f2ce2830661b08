// @ts-check
// A receiving advice beside what was announced: for each pallet and article what was sent, what was received, and the difference.

import { cameInInWords, dateInWords } from "../edi/dates.js";
import { sumsOf } from "../edi/receipt.js";
import { phrases } from "../language.js";
import { articleCell, articleColumn } from "../parts/article.js";
import { figure, saying, terms } from "../parts/dom.js";
import { difference } from "../parts/difference.js";
import { Table } from "../parts/table.js";

/** @typedef {import("../hub/replies.js").StatusPallet} StatusPallet */
/** @typedef {import("../edi/receipt.js").ReceiptLine} ReceiptLine */
/** @typedef {{ sscc: string, gtin: string, announced: number | null, now: StatusPallet | null, received: ReceiptLine }} Row */

/** @param {import("../edi/receipt.js").Receipt} receipt
 * @param {import("../session.js").Entry} entry
 * @param {{ pallets: StatusPallet[] }} status
 * @param {import("../articles.js").Articles} articles @param {string} from the buyer */
export function receiptView(receipt, entry, status, articles, from) {
  const rows = receipt.units.flatMap((unit) => rowsOf(unit, status.pallets.filter((it) => it.sscc === unit.sscc)));
  return [
    ...correctedSince(receipt, rows),
    terms([
      [phrases.common.from, from || phrases.receipt.retailer],
      [phrases.receipt.date, dateInWords(receipt.date, receipt.format)],
      [phrases.common.cameIn, entry.interchange ? cameInInWords(entry.interchange) : ""],
    ]),
    receipt.replaces && saying("plain", phrases.receipt.replaces),
    new Table({ caption: phrases.receipt.caption, columns: columns(articles), rows, sums: true }).element,
  ];
}

// The rows of a pallet: each article that the advice names, and each that was announced and is not named.
/** @param {import("../edi/receipt.js").ReceiptUnit} unit @param {StatusPallet[]} announced @returns {Row[]} */
function rowsOf(unit, announced) {
  const sums = sumsOf(unit);
  const articles = [...new Set([...announced.map((it) => it.gtin), ...sums.keys()])].sort();
  const nothing = (/** @type {string} */ gtin) => ({ gtin, accepted: 0, returned: 0, destroyed: 0 });
  return articles.map((gtin) => {
    const now = announced.find((it) => it.gtin === gtin) ?? null;
    return { sscc: unit.sscc, gtin, announced: now && now.despatched, now, received: sums.get(gtin) ?? nothing(gtin) };
  });
}

/** @param {ReceiptLine} it */
const inAll = (it) => it.accepted + it.returned + it.destroyed;

/** @param {import("../articles.js").Articles} articles @returns {import("../parts/table.js").Column<Row>[]} */
function columns(articles) {
  const quantity = (/** @type {string} */ title, /** @type {"accepted" | "returned" | "destroyed"} */ name) => ({
    title,
    cell: (/** @type {Row} */ it) => figure(it.received[name]),
    value: (/** @type {Row} */ it) => it.received[name],
    number: true,
    sum: true,
  });
  const announced = (/** @type {Row} */ it) => it.announced ?? 0;
  const lack = (/** @type {Row} */ it) => inAll(it.received) - announced(it);
  return [
    { title: phrases.common.palletSscc, cell: (it) => it.sscc, value: (it) => it.sscc, kind: "digits" },
    { ...articleColumn((/** @type {Row} */ it) => it.gtin, (it) => articleCell(it.gtin, articles.of(it))), value: (it) => it.gtin },
    { title: phrases.receipt.announced, cell: announcedInWords, value: announced, number: true, sum: true },
    quantity(phrases.common.accepted, "accepted"),
    quantity(phrases.common.returned, "returned"),
    quantity(phrases.common.destroyed, "destroyed"),
    { title: phrases.common.difference, cell: (it) => difference(lack(it)), value: lack, csv: lack, number: true },
  ];
}

/** @param {Row} row */
const announcedInWords = ({ announced }) => (announced === null ? "–" : figure(announced));

// Where the status has other sums than this advice, a later one took its place.
/** @param {import("../edi/receipt.js").Receipt} receipt @param {Row[]} rows */
function correctedSince(receipt, rows) {
  const kinds = /** @type {const} */ (["accepted", "returned", "destroyed"]);
  const other = rows.filter(({ now, received }) => kinds.some((it) => now?.[it] !== received[it]));
  const pallets = [...new Set(other.map((it) => it.sscc))];
  if (!pallets.length) return [];
  return [saying("warn", phrases.receipt.replacedLater(receipt.document, pallets.length, pallets.join(", ")))];
}
