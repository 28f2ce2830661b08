// @ts-check
// An order as a page: parties, dates, and lines with what became of them.

import { detailsOfEntry } from "../articles.js";
import { cameInInWords } from "../edi/dates.js";
import { phrases } from "../language.js";
import { articleCell, articleColumn } from "../parts/article.js";
import { element, exact, figure, notice, terms } from "../parts/dom.js";
import { numberInWords } from "../parts/order_number.js";
import { Table } from "../parts/table.js";
import { dateRow, packInWords, partyRow, priceInWords, rawSegments, remarks } from "./order_words.js";

/** @typedef {import("../edi/order.js").Order} Order */
/** @typedef {import("../edi/order_details.js").Details} Details */
/** @typedef {import("../hub/replies.js").StatusLine} StatusLine */
/** @typedef {ReturnType<typeof linesWithStatus>[number] & { details: Details }} Line */
/** @typedef {import("../parts/table.js").Column<Line>} Column */

/** The lines of an order with its exact number beside what the status says of each.
 * @param {Order} order @param {StatusLine[]} lines */
export function linesWithStatus(order, lines) {
  const own = lines.filter((it) => it.order === order.document);
  return order.lines.map((line) => ({ ...line, status: own.find((it) => it.line === line.line) ?? null }));
}

/** @param {Order} order @param {import("../session.js").Entry} entry @param {{ lines: StatusLine[] }} status
 * @param {(gln: string) => string} nameOf the name of a party, if it is known */
export function orderView(order, entry, status, nameOf) {
  const details = detailsOfEntry(entry);
  if (!details) return [];
  const { header, lines } = details;
  const rows = linesWithStatus(order, status.lines).map((it, place) => ({ ...it, details: lines[place] }));
  const columns = columnsOf(rows, header.currency);
  return [
    element("div", { class: "columns" }, terms(header.parties.map((it) => partyRow(named(it, nameOf)))), terms(facts(header, entry))),
    ...header.texts.map((it) => element("p", { class: "free-text" }, exact(it))),
    unread(header.raw),
    new Table({ caption: phrases.order.caption(numberInWords(order.document)), kind: "order-lines", columns, rows, sums: true }).element,
  ];
}

// A party of which the order has the GLN alone.
/** @param {Details["parties"][number]} party @param {(gln: string) => string} nameOf */
const named = (party, nameOf) => (party.address.length ? party : { ...party, address: [nameOf(party.gln)] });

/** @param {Details} header @param {import("../session.js").Entry} entry */
function facts({ dates, descriptions, itemKinds, contracts, packs, currency }, entry) {
  /** @type {[string, import("../parts/dom.js").Child][]} */
  const rows = dates.map(dateRow);
  [...descriptions, ...itemKinds].forEach((it) => rows.push([phrases.order.ofAllLines, exact(it)]));
  contracts.forEach((it) => rows.push([phrases.order.contract, exact(it)]));
  packs.forEach((it) => rows.push([phrases.order.packages, packInWords(it)]));
  if (currency) rows.push([phrases.order.currency, currency]);
  if (entry.interchange) rows.push([phrases.common.cameIn, cameInInWords(entry.interchange)]);
  return rows;
}

/** @param {string[]} raw */
function unread(raw) {
  const words = phrases.order.unread;
  return raw.length ? notice("plain", element("p", {}, words), rawSegments(raw)) : null;
}

// Pack, price and remarks have a column only if a line has some.
/** @param {Line[]} rows @param {string} currency @returns {Column[]} */
function columnsOf(rows, currency) {
  const some = (/** @type {(details: Details) => unknown[]} */ of, /** @type {Column} */ column) =>
    rows.some((it) => of(it.details).length) ? [column] : [];
  const lined = (/** @type {string} */ title, /** @type {(details: Details) => string[]} */ texts) => ({
    title,
    cell: (/** @type {Line} */ it) => whole(texts(it.details).map((text) => element("span", { class: "article-line" }, text))),
    csv: (/** @type {Line} */ it) => texts(it.details).join("; "),
  });
  const said = (/** @type {Line} */ it) => remarks(it.details).map((paragraph) => paragraph.textContent).join("; ");
  const known = (/** @type {string} */ title, /** @type {"open" | "despatched"} */ name) => ({
    title,
    cell: (/** @type {Line} */ { status }) => (status ? figure(status[name]) : "–"),
    value: (/** @type {Line} */ { status }) => status?.[name] ?? 0,
    number: true,
    sum: true,
  });
  const title = phrases.order.remarks;
  const ofRemarks = { title, cell: (/** @type {Line} */ it) => whole(remarks(it.details)), kind: "remarks", csv: said };
  return [
    { title: phrases.common.line, cell: (it) => it.line, value: (it) => it.line },
    { ...articleColumn((/** @type {Line} */ it) => it.gtin, articleOfLine), value: (it) => it.gtin },
    ...some((it) => it.packs, lined(phrases.order.pack, (it) => it.packs.map(packInWords))),
    ...some((it) => it.prices, lined(phrases.order.price, (it) => it.prices.map((price) => priceInWords(price, currency)))),
    { title: phrases.common.ordered, cell: (it) => figure(it.quantity), value: (it) => it.quantity, number: true, sum: true },
    known(phrases.common.open, "open"),
    known(phrases.common.despatched, "despatched"),
    { title: phrases.answer.yourAnswer, cell: answerInWords, value: (it) => it.status?.answer ?? "" },
    ...some(remarks, ofRemarks),
  ];
}

/** @param {Line} line */
const answerInWords = ({ status }) => (status ? phrases.answers[status.answer] : "–");

// An empty cell is left out of the cards of a narrow page.
/** @param {HTMLElement[]} parts */
const whole = (parts) => (parts.length ? element("div", { class: "article" }, ...parts) : "");

/** @param {Line} line */
function articleOfLine({ gtin, details: { descriptions, itemKinds, supplierNumbers, buyerNumbers } }) {
  const article = { description: [...descriptions, ...itemKinds].join(", "), number: supplierNumbers.join(", ") };
  const ofBuyer = buyerNumbers.length ? element("span", {}, ...phrases.article.buyers(exact(buyerNumbers.join(", ")))) : null;
  return articleCell(gtin, article, ofBuyer);
}
