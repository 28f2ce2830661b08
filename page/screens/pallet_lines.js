// @ts-check
// The table of the order lines on a pallet, with a field for the quantity of each.

import { nameOf } from "../despatch/ledger.js";
import { phrases } from "../language.js";
import { articleCell, articleColumn } from "../parts/article.js";
import { element, figure } from "../parts/dom.js";
import { Field, wholeNumber } from "../parts/field.js";
import { orderInWords, orderNumber } from "../parts/order_number.js";
import { Table } from "../parts/table.js";

/** @typedef {import("../despatch/ledger.js").Ledger} Ledger */
/** @typedef {import("../despatch/ledger.js").Load} Load */
/** @typedef {import("../hub/replies.js").StatusLine} StatusLine */
/** @typedef {{ line: StatusLine, field: Field, left: HTMLElement }} Row */

/** @param {StatusLine} line */
const quantityLabel = (line) => phrases.palletLines.quantityOf(orderInWords(line), line.line);

export class PalletLines {
  /** @param {Ledger} ledger @param {Load} load @param {import("../articles.js").Articles} articles */
  constructor(ledger, load, articles) {
    this.ledger = ledger;
    this.load = load;
    /** @type {Row[]} */
    this.rows = [];
    /** @type {Map<string, string>} what is wrong with the quantities of lines */
    this.wrongs = new Map();
    const words = { caption: phrases.palletLines.caption, kind: "contents", columns: columns(ledger, articles) };
    /** @type {Table<Row>} */
    this.table = new Table({ ...words, rows: this.rows });
    this.element = this.table.element;
  }

  /** Lists these lines, and shows of each what was typed and what is wrong.
   * @param {StatusLine[]} lines */
  draw(lines) {
    const known = new Map(this.rows.map((it) => [it.line, it]));
    this.rows = lines.map((line) => known.get(line) ?? this.#row(line));
    this.table.empty = this.ledger.lines.length ? phrases.palletLines.empty : phrases.palletLines.chooseOrder;
    this.table.showAgain(this.rows);
    for (const { line, field } of this.rows) {
      const text = this.load.text(line);
      if (field.value !== text) field.value = text;
      const wrong = this.wrongs.get(nameOf(line)) ?? "";
      if (wrong || field.isWrong) field.say(wrong);
    }
    this.refresh(null);
  }

  /** @param {StatusLine} line @returns {Row} */
  #row(line) {
    const field = new Field({ label: quantityLabel(line), hidden: true, inputmode: "numeric", maxlength: 9, class: "short" });
    field.input.addEventListener("input", () => {
      this.wrongs.delete(nameOf(line));
      this.load.set(line, field.value);
    });
    return { line, field, left: element("span", {}) };
  }

  /** Shows what is left of the lines of these names, or of all, and leaves out what is not wrong any more.
   * @param {Set<string> | null} names */
  refresh(names) {
    if (this.wrongs.size) this.#forgive();
    for (const { line, left } of this.rows) if (!names || names.has(nameOf(line))) showLeft(left, this.ledger.left(line));
  }

  /** Finds out which quantities cannot be sent. */
  check() {
    this.wrongs = this.#wrongNow();
    for (const { line, field } of this.rows) {
      const wrong = this.wrongs.get(nameOf(line)) ?? "";
      if (wrong || field.isWrong) field.say(wrong);
    }
  }

  #wrongNow() {
    /** @type {Map<string, string>} */
    const wrongs = new Map();
    for (const [name, text] of this.load.texts) {
      const wrong = wrongQuantity(text.trim(), this.ledger.tally(name));
      if (wrong) wrongs.set(name, wrong);
    }
    return wrongs;
  }

  // Less on another pallet can be the correction.
  #forgive() {
    const now = this.#wrongNow();
    for (const name of this.wrongs.keys()) if (!now.has(name)) this.wrongs.delete(name);
    for (const { line, field } of this.rows) if (field.isWrong && !this.wrongs.has(nameOf(line))) field.say("");
  }
}

/** Shows how much is left, and how much too much is on pallets.
 * @param {HTMLElement} shown @param {number} left */
export function showLeft(shown, left) {
  const words = left < 0 ? `−${figure(-left)}` : figure(left);
  if (shown.textContent !== words) shown.textContent = words;
  shown.classList.toggle("too-much", left < 0);
}

/** @param {Ledger} ledger @param {import("../articles.js").Articles} articles @returns {import("../parts/table.js").Column<Row>[]} */
function columns(ledger, articles) {
  return [
    { title: phrases.common.order, cell: (it) => orderNumber(it.line) },
    { title: phrases.common.line, cell: (it) => it.line.line },
    articleColumn((/** @type {Row} */ it) => it.line.gtin, ({ line }) => articleCell(line.gtin, articles.of(line))),
    { title: phrases.common.open, cell: (it) => figure(it.line.open), csv: (it) => it.line.open, number: true },
    { title: phrases.common.left, cell: (it) => it.left, csv: (it) => ledger.left(it.line), number: true },
    { title: phrases.palletLines.onThis, cell: (it) => it.field.element, csv: (it) => it.field.trimmed },
  ];
}

/** @param {string} text @param {import("../despatch/ledger.js").Tally} tally */
function wrongQuantity(text, { open, placed }) {
  if (Number.isNaN(wholeNumber(text))) return phrases.palletLines.notWhole;
  return placed > open && wholeNumber(text) > 0 ? phrases.palletLines.tooMuch(open, placed) : "";
}
