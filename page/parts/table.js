// @ts-check
// A table whose rows are sorted by its headings or a choice, filtered from outside, summed below, and downloaded as CSV as they are shown.
// On a narrow page each row is a card, whose cells name their column.

import { phrases } from "../language.js";
import { asText, csvText, harmless, separatorOf } from "./csv.js";
import { append, element, figure } from "./dom.js";
import { csvButton } from "./download.js";
import { SortChoice } from "./sort_choice.js";

/** @typedef {import("./dom.js").Child} Child */
/**
 * @template Row
 * @typedef {{ name?: string, title: string, cell: (row: Row) => Child | Child[], value?: (row: Row) => string | number, number?: boolean,
 *   sum?: boolean, kind?: string, csv?: false | ((row: Row) => string | number) }} Column `csv` is what a file says instead of the cell;
 * a column without a title, or with `csv: false`, is not in the file
 */

/** @template Row */
export class Table {
  /** @param {{ caption: string, columns: Column<Row>[], rows: Row[], kind?: string, empty?: string, sums?: boolean, most?: number }} words
   * the first `most` rows are drawn; the file and the sums have all */
  constructor({ caption, columns, rows, kind = "", empty = phrases.table.nothing, sums = false, most = Infinity }) {
    this.columns = columns;
    this.rows = rows;
    this.empty = empty;
    this.most = most;
    /** @type {Row[]} in their order */
    this.shown = [];
    this.blank = element("tr", { role: "row" }, ...columns.map(blankCell));
    /** @type {WeakMap<any, HTMLElement>} rows that are not shown any more are forgotten with their elements */
    this.made = new WeakMap();
    this.sortedBy = -1;
    this.falls = false;
    this.heads = columns.map((column, place) => this.#head(column, place));
    this.body = /** @type {HTMLTableSectionElement} */ (element("tbody", { role: "rowgroup" }));
    this.foot = sums ? element("tfoot", { role: "rowgroup" }) : null;
    const head = element("thead", { role: "rowgroup" }, element("tr", { role: "row" }, ...this.heads));
    const caption_ = element("caption", { class: "spoken" }, caption);
    const table = element("table", { role: "table", class: kind }, caption_, head, this.body, this.foot);
    this.download = csvButton(caption, () => this.csv());
    this.more = element("p", { class: "hint", hidden: true });
    this.choice = new SortChoice(columns, (place, falls) => this.sortBy(place, falls));
    const scrolled = element("div", { class: "table" }, table);
    this.element = element("div", { class: "table-part" }, this.choice.element, scrolled, this.more, this.download);
    this.show(rows);
  }

  /** @param {Column<Row>} column @param {number} place */
  #head(column, place) {
    const kind = [column.number ? "number" : "", column.kind ?? ""].join(" ").trim();
    if (!column.value) return element("th", { role: "columnheader", scope: "col", class: kind }, column.title);
    const sort = element("button", { type: "button", class: "sort", onclick: () => this.sort(place) }, column.title);
    return element("th", { role: "columnheader", scope: "col", class: kind, "aria-sort": "none" }, sort);
  }

  /** Sorts by a heading that was pressed.
   * @param {number} place */
  sort(place) {
    this.sortBy(place, this.sortedBy === place && !this.falls);
  }

  /** @param {number} place -1: as the rows come @param {boolean} falls */
  sortBy(place, falls) {
    [this.sortedBy, this.falls] = [place, falls];
    this.choice.show(place, falls);
    this.heads.forEach((head, at) => {
      if (head.hasAttribute("aria-sort")) head.setAttribute("aria-sort", at !== place ? "none" : this.falls ? "descending" : "ascending");
    });
    this.show(this.rows);
  }

  /** Sorts again once values have changed, if a heading was pressed. */
  sortAgain() {
    if (this.sortedBy >= 0) this.showAgain(this.rows);
  }

  /** Shows these rows in the place of others; what has the focus keeps it, or else the link to the same place gets it.
   * @param {Row[]} rows */
  showAgain(rows) {
    const focused = this.body.contains(document.activeElement) ? /** @type {HTMLElement} */ (document.activeElement) : null;
    this.show(rows);
    if (!focused) return;
    const to = focused.getAttribute("href");
    const same = [...this.body.querySelectorAll("a")].find((it) => it.getAttribute("href") === to);
    (focused.isConnected ? focused : same)?.focus({ preventScroll: true });
  }

  /** Shows these rows, in the order that is chosen.
   * @param {Row[]} rows */
  show(rows) {
    this.rows = rows;
    const value = this.columns[this.sortedBy]?.value;
    const turn = this.falls ? -1 : 1;
    const sorted = value ? [...rows].sort((a, b) => turn * compared(value(a), value(b))) : rows;
    this.shown = sorted;
    this.download.hidden = !sorted.length;
    this.choice.offer(sorted.length);
    const none = element("tr", { role: "row" }, element("td", { role: "cell", colspan: this.columns.length, class: "none" }, this.empty));
    const drawn = sorted.slice(0, this.most);
    this.body.replaceChildren(...(drawn.length ? drawn.map((row) => this.#row(row)) : [none]));
    this.more.hidden = drawn.length === sorted.length;
    this.more.textContent = phrases.table.first(drawn.length, sorted.length);
    this.foot?.replaceChildren(...(rows.length > 1 ? [this.#sums(rows)] : []));
  }

  /** The rows as they are shown, under the headings and without the sums.
   * @param {string} [language] */
  csv(language = navigator.language) {
    const columns = this.columns.flatMap((it, place) => (isInFile(it) ? [place] : []));
    const rows = this.shown.map((row) => columns.map((place) => this.#written(row, place)));
    return csvText([columns.map((place) => this.columns[place].title), ...rows], separatorOf(language));
  }

  // A figure without its commas, and an identifier as a text.
  /** @param {Row} row @param {number} place */
  #written(row, place) {
    const { csv, value, kind } = this.columns[place];
    const cell = csv ? csv(row) : this.#row(row).children[place].textContent ?? "";
    const number = typeof cell === "number" ? cell : value?.(row);
    if (typeof number === "number" && (cell === number || cell === figure(number))) return String(number);
    return kind === "digits" ? asText(String(cell)) : harmless(String(cell));
  }

  // A row is made once, and moved when the table is sorted.
  /** @param {Row} row */
  #row(row) {
    const known = this.made.get(row);
    if (known) return known;
    const made = this.#filled(this.columns.map((it) => it.cell(row)));
    this.made.set(row, made);
    return made;
  }

  /** @param {(Child | Child[])[]} contents */
  #filled(contents) {
    const row = /** @type {HTMLElement} */ (this.blank.cloneNode(true));
    contents.forEach((content, place) => {
      if (content === "") row.children[place].classList.add("empty");
      else append(row.children[place], [content]);
    });
    return row;
  }

  /** @param {Row[]} rows */
  #sums(rows) {
    const sum = (/** @type {Column<Row>} */ { sum: summed, value }) =>
      summed && value ? figure(rows.reduce((all, row) => all + Number(value(row)), 0)) : "";
    const first = this.columns.findIndex(isInFile);
    return this.#filled(this.columns.map((it, place) => (place === first ? phrases.table.sumOf(rows.length) : sum(it))));
  }
}

/**
 * @template Row
 * @param {Column<Row>} column
 */
const isInFile = ({ title, csv }) => title !== "" && csv !== false;

/**
 * @template Row
 * @param {Column<Row>} column
 */
function blankCell({ title, number, kind }) {
  return element("td", { role: "cell", class: [number ? "number" : "", kind ?? ""].join(" ").trim() || null, "data-label": title });
}

const ORDER = new Intl.Collator("en", { numeric: true });

/** @param {string | number} a @param {string | number} b */
const compared = (a, b) => (typeof a === "number" && typeof b === "number" ? a - b : ORDER.compare(String(a), String(b)));
