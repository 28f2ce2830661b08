// @ts-check
// The status of a supplier: order lines with what became of them, and pallets with what was received.

import { Articles, articlesOf } from "../articles.js";
import { isAnnounced, isDifferent, isOpen, isUnanswered } from "../hub/status_kinds.js";
import { phrases } from "../language.js";
import { articleCell, articleColumn } from "../parts/article.js";
import { bar, legend } from "../parts/bar.js";
import { difference } from "../parts/difference.js";
import { element, figure, heading } from "../parts/dom.js";
import { FilteredTable } from "../parts/filtered_table.js";
import { orderNumber } from "../parts/order_number.js";
import { notUnderstood } from "../parts/raw.js";

/** @typedef {import("../hub/replies.js").StatusLine} StatusLine */
/** @typedef {import("../hub/replies.js").StatusPallet} StatusPallet */
/** @typedef {import("../parts/dom.js").Child} Child */
/** @typedef {import("../parts/table.js").Column<StatusLine>} Column a column of the order lines */

/** @returns {[string, string, (line: StatusLine) => boolean][]} */
const linesShown = () => [
  ["all", phrases.status.allLines, () => true],
  ["open", phrases.common.withSomethingOpen, isOpen],
  ["waiting", phrases.common.notAnsweredYet, isUnanswered],
  ["refused", phrases.status.withSomethingRefused, (it) => it.refused > 0],
  ["cancelled", phrases.status.withSomethingCancelled, (it) => it.cancelled > 0],
];
/** @returns {[string, string, (pallet: StatusPallet) => boolean][]} */
const palletsShown = () => [
  ["all", phrases.status.allPallets, () => true],
  ["announced", phrases.common.announcedNotReceived, isAnnounced],
  ["different", phrases.common.withADifference, isDifferent],
  ["corrected", phrases.status.corrected, (it) => it.state === "C"],
];

/** @param {import("../start.js").Context} context @param {string} [sscc] of the pallet to begin with, above the order lines */
export async function statusScreen({ session }, sscc = "") {
  const status = await session.status();
  const [lines, pallets, raw] = statusView(status, articlesOf(session), { answer: phrases.answer.yourAnswer, sscc });
  return { title: phrases.common.status, content: [heading(phrases.common.status), ...(sscc ? [pallets, lines] : [lines, pallets]), raw] };
}

/** @param {{ lines: StatusLine[], pallets: StatusPallet[], raw: string[] }} status
 * @param {Articles} articles
 * @param {{ answer: string, sscc?: string, without?: string[], more?: Record<"first" | "last", Column[]>,
 *   under?: (shown: () => StatusLine[]) => Child }} words whose `answer` the lines have, by which `sscc` the pallets are filtered to begin
 * with, columns of the lines that are left out and added, and what is under the lines */
export function statusView(status, articles, { answer, sscc = "", without = [], more = { first: [], last: [] }, under = () => null }) {
  const ofLines = { caption: phrases.common.orderLines, kind: "lines", empty: phrases.status.noLineFits, sums: true };
  const lines = new FilteredTable(
    { ...ofLines, columns: [...more.first, ...lineColumns(articles, answer, ...without), ...more.last], rows: status.lines },
    { label: phrases.status.filterLines, kinds: linesShown(), words: (it) => [it.order, it.gtin, articles.words(it)] },
  );
  const ofPallets = { caption: phrases.common.pallets, kind: "pallet-rows", empty: phrases.status.noPalletFits, sums: true };
  const pallets = new FilteredTable(
    { ...ofPallets, columns: palletColumns(articles), rows: status.pallets },
    { label: phrases.status.filterPallets, kinds: palletsShown(), words: (it) => [it.sscc, it.gtin, articles.words(it)], value: sscc },
  );
  const key = without.includes("shares") ? null : legend();
  const chosen = under(() => lines.table.shown);
  return [
    element("section", {}, element("h2", {}, phrases.common.orderLines), lines.filter.element, key, lines.table.element, chosen),
    element("section", {}, element("h2", {}, phrases.common.pallets), pallets.filter.element, pallets.table.element),
    status.raw.length ? notUnderstood(phrases.status.notUnderstood, status.raw.join("\n")) : null,
  ];
}

/** @param {Articles} articles @param {string} answer the title of the answers @param {...string} without names of columns that are left out
 * @returns {Column[]} */
export function lineColumns(articles, answer, ...without) {
  const quantity = (/** @type {string} */ title, /** @type {"ordered" | "despatched" | "open" | "refused" | "cancelled"} */ name) => ({
    name,
    title,
    cell: (/** @type {StatusLine} */ it) => figure(it[name]),
    value: (/** @type {StatusLine} */ it) => it[name],
    number: true,
    sum: true,
  });
  /** @type {Column[]} */
  const columns = [
    { title: phrases.common.order, cell: orderNumber, value: (it) => it.order },
    { title: phrases.common.line, cell: (it) => it.line, value: (it) => it.line },
    { ...articleColumn((/** @type {StatusLine} */ it) => it.gtin, (it) => articleCell(it.gtin, articles.of(it))), value: (it) => it.gtin },
    { title: answer, cell: (it) => phrases.answers[it.answer], value: (it) => phrases.answers[it.answer] },
    quantity(phrases.common.ordered, "ordered"),
    quantity(phrases.common.despatched, "despatched"),
    quantity(phrases.common.open, "open"),
    quantity(phrases.status.refused, "refused"),
    quantity(phrases.common.cancelled, "cancelled"),
    { name: "shares", title: phrases.status.shares, cell: bar, kind: "bar-cell", csv: false },
  ];
  return columns.filter((it) => !without.includes(it.name ?? ""));
}

/** @param {Articles} articles @param {...string} without names of columns that are left out
 * @returns {import("../parts/table.js").Column<StatusPallet>[]} */
export function palletColumns(articles, ...without) {
  const quantity = (/** @type {string} */ title, /** @type {"despatched" | "accepted" | "returned" | "destroyed"} */ name) => ({
    name,
    title,
    cell: (/** @type {StatusPallet} */ it) => figure(it[name]),
    value: (/** @type {StatusPallet} */ it) => it[name],
    number: true,
    sum: true,
  });
  const article = articleColumn((/** @type {StatusPallet} */ it) => it.gtin, (it) => articleCell(it.gtin, articles.of(it)));
  const none = phrases.status.notReceived;
  const lack = (/** @type {StatusPallet} */ it) => (it.state === "A" ? none : difference(it.difference));
  const lackInFile = (/** @type {StatusPallet} */ it) => (it.state === "A" ? none : it.difference);
  /** @type {import("../parts/table.js").Column<StatusPallet>[]} */
  const columns = [
    { title: phrases.common.palletSscc, cell: (it) => it.sscc, value: (it) => it.sscc, kind: "digits" },
    { ...article, value: (it) => it.gtin },
    { title: phrases.status.state, cell: (it) => phrases.palletStates[it.state], value: (it) => phrases.palletStates[it.state] },
    quantity(phrases.common.despatched, "despatched"),
    quantity(phrases.common.accepted, "accepted"),
    quantity(phrases.common.returned, "returned"),
    quantity(phrases.common.destroyed, "destroyed"),
    { title: phrases.common.difference, cell: lack, value: (it) => it.difference, number: true, csv: lackInFile },
  ];
  return columns.filter((it) => !without.includes(it.name ?? ""));
}
