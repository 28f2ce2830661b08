// @ts-check
// Shows what is left of each order line, while pallets are filled.

import { nameOf } from "../despatch/ledger.js";
import { phrases } from "../language.js";
import { articleCell, articleColumn } from "../parts/article.js";
import { element, figure } from "../parts/dom.js";
import { orderNumber } from "../parts/order_number.js";
import { Table } from "../parts/table.js";
import { showLeft } from "./pallet_lines.js";

/** @typedef {import("../despatch/ledger.js").Ledger} Ledger */
/** @typedef {import("../hub/replies.js").StatusLine} StatusLine */
/** @typedef {{ line: StatusLine, placed: HTMLElement, left: HTMLElement }} Row */

export class LeftLines {
  /** @param {Ledger} ledger @param {import("../articles.js").Articles} articles */
  constructor(ledger, articles) {
    this.ledger = ledger;
    /** @type {Map<StatusLine, Row>} */
    this.rows = new Map();
    const words = { caption: phrases.leftLines.caption, kind: "left-lines", empty: phrases.leftLines.empty };
    /** @type {Table<Row>} */
    this.table = new Table({ ...words, columns: columns(ledger, articles), rows: [] });
    this.summary = element("summary", {});
    this.details = /** @type {HTMLDetailsElement} */ (element("details", { class: "left" }, this.summary, this.table.element));
    this.details.addEventListener("toggle", () => this.draw());
    this.element = this.details;
    this.draw();
  }

  draw() {
    const { lines } = this.ledger;
    const left = lines.filter((it) => this.ledger.left(it) !== 0);
    this.summary.textContent = inWords(left.map((it) => this.ledger.left(it)), lines.length);
    this.element.hidden = !lines.length;
    if (!this.details.open) return;
    const rows = left.map((it) => this.#row(it));
    if (rows.length !== this.table.rows.length || rows.some((it, place) => it !== this.table.rows[place])) this.table.showAgain(rows);
  }

  /** @param {StatusLine} line @returns {Row} */
  #row(line) {
    const row = this.rows.get(line) ?? { line, placed: element("span", {}), left: element("span", {}) };
    this.rows.set(line, row);
    const placed = figure(this.ledger.tally(nameOf(line)).placed);
    if (row.placed.textContent !== placed) row.placed.textContent = placed;
    showLeft(row.left, this.ledger.left(line));
    return row;
  }
}

/** @param {number[]} left of the lines of which something is left or too much is on pallets @param {number} count of all lines */
function inWords(left, count) {
  const more = left.filter((it) => it > 0);
  const less = left.length - more.length;
  const pieces = more.reduce((all, it) => all + it, 0);
  const words = more.length ? phrases.leftLines.left(pieces, more.length, count) : phrases.leftLines.nothing;
  return less ? `${words}; ${phrases.leftLines.tooMuch(less)}` : words;
}

/** @param {Ledger} ledger @param {import("../articles.js").Articles} articles @returns {import("../parts/table.js").Column<Row>[]} */
function columns(ledger, articles) {
  return [
    { title: phrases.common.order, cell: (it) => orderNumber(it.line) },
    { title: phrases.common.line, cell: (it) => it.line.line },
    articleColumn((/** @type {Row} */ it) => it.line.gtin, ({ line }) => articleCell(line.gtin, articles.of(line))),
    { title: phrases.common.open, cell: (it) => figure(it.line.open), csv: (it) => it.line.open, number: true },
    { title: phrases.leftLines.onPallets, cell: (it) => it.placed, csv: (it) => ledger.tally(nameOf(it.line)).placed, number: true },
    { title: phrases.common.left, cell: (it) => it.left, csv: (it) => ledger.left(it.line), number: true },
  ];
}
