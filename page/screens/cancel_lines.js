// @ts-check
// Cancels several lines of a supplier: how many of each is typed, checked against what is open now and summed up, and a second press sends
// them one after another.

import { Articles } from "../articles.js";
import { gtinAsPrinted } from "../edi/identifiers.js";
import { cancelQueueOf } from "../hub/cancel_queue.js";
import { phrases } from "../language.js";
import { cancellationInWords, severalInWords, tooMuchInWords } from "../parts/cancellation_words.js";
import { actions, button, element, heading, link, saying } from "../parts/dom.js";
import { enterMoves } from "../parts/enter_moves.js";
import { Field, check, focusFirstWrong, wholeNumber } from "../parts/field.js";
import { wrongGln } from "../parts/gln.js";
import { look } from "../parts/look.js";
import { orderInWords } from "../parts/order_number.js";
import { clockTime } from "../parts/sending_panel.js";
import { Summary } from "../parts/summary.js";
import { Table } from "../parts/table.js";
import { ChosenLines } from "../suppliers/chosen_lines.js";
import { partyNames } from "../party_names.js";
import { plannerOf } from "../suppliers/planner.js";
import { CancelResults } from "./cancel_results.js";
import { lineColumns } from "./status.js";

/** @typedef {import("../hub/replies.js").StatusLine} StatusLine */
/** @typedef {import("../hub/cancel_queue.js").CancelQueue} CancelQueue */
/** @typedef {StatusLine & { field: Field }} Row */

const WITHOUT = ["refused", "cancelled", "shares"];

/** @param {import("../start.js").Context} context @param {string} [supplier] */
export async function cancelLinesScreen({ session }, supplier = "") {
  const title = phrases.cancelLines.title;
  const wrong = wrongGln(supplier);
  if (wrong) return { title, content: [heading(title), saying("bad", wrong)] };
  const name = (await plannerOf(session)).list.nameOf(supplier);
  const queue = cancelQueueOf(session.sent);
  const chosen = new ChosenLines(session.hub.caller, supplier);
  const results = new CancelResults(queue, supplier);
  const ask = async () => (await session.status(supplier)).lines;
  const lines = chosen.chosen.length ? await ask() : [];
  const named = partyNames(session).byName(supplier);
  const form = new CancelForm({ supplier, named, queue, chosen, results, lines, ask });
  const back = element("p", { class: "back" }, link(`‹ ${phrases.common.statusOfThisSupplier}`, `supplier/${supplier}`));
  const shown = form.rows.length ? form.element : null;
  const none = noneChosen(form, queue.of(supplier).length);
  const content = [back, heading(name ? phrases.cancelLines.titleOf(name) : title), shown, none, results.element];
  return { title, content, leave: results.follow() };
}

/** @param {CancelForm} form @param {number} sent */
function noneChosen({ rows, gone }, sent) {
  const left = gone.length ? `${phrases.cancelLines.gone(gone.join("; "))} ` : "";
  const none = rows.length || sent ? "" : phrases.cancelLines.noneChosen;
  return left || none ? saying("plain", left, none) : null;
}

class CancelForm {
  /** @param {{ supplier: string, named: string, queue: CancelQueue, chosen: ChosenLines, results: CancelResults,
   *   lines: StatusLine[], ask: () => Promise<StatusLine[]> }} words `ask` asks the hub for the lines as they are now */
  constructor({ supplier, named, queue, chosen, results, lines, ask }) {
    this.supplier = supplier;
    this.named = named;
    this.queue = queue;
    this.chosen = chosen;
    this.results = results;
    this.ask = ask;
    this.askedAt = Date.now();
    this.isAnswered = true;
    this.rows = this.#rowsOf(lines);
    this.gone = this.#dropGone(lines);
    this.first = element("div", { role: "alert" });
    const checkButton = button(phrases.cancelLines.check, () => this.review(), { class: "primary" });
    const all = button(phrases.cancelLines.fillAll, () => this.fillAll(), { class: "quiet" });
    this.table = new Table({ caption: phrases.cancelLines.caption, kind: "lines answers", columns: columns(), rows: this.rows });
    this.fields = /** @type {HTMLFieldSetElement} */ (
      element("fieldset", { class: "bare" }, actions(all), this.table.element, actions(checkButton))
    );
    this.summary = new Summary(phrases.cancelLines.noun, () => this.send(), () => this.edit());
    const parts = [this.fields, this.first, this.summary.element];
    this.element = element("form", { novalidate: true, onsubmit: (event) => event.preventDefault() }, ...parts);
    enterMoves(this.fields, checkButton);
    this.note();
  }

  /** The chosen lines that are open, without those that wait for their turn already.
   * @param {StatusLine[]} lines @returns {Row[]} */
  #rowsOf(lines) {
    const waiting = this.queue.of(this.supplier).filter((it) => it.sending.state === "review");
    const isSent = (/** @type {StatusLine} */ it) => waiting.some(({ line }) => line.order === it.order && line.line === it.line);
    const open = lines.filter((it) => it.open > 0 && !it.unsure && this.chosen.of(it) && !isSent(it));
    return open.map((line) => ({ ...line, field: this.#field(line) }));
  }

  /** @param {StatusLine} line */
  #field(line) {
    const label = phrases.cancelLines.quantityOf(orderInWords(line), line.line);
    const value = this.chosen.of(line)?.quantity ?? "";
    const field = new Field({ label, hidden: true, value, inputmode: "numeric", maxlength: 9, class: "short" });
    field.input.addEventListener("input", () => {
      this.chosen.choose(line, field.trimmed);
      this.note();
    });
    return field;
  }

  // What was chosen and has nothing open any more, in words.
  /** @param {StatusLine[]} lines */
  #dropGone(lines) {
    const isOpen = (/** @type {{ order: string, line: number }} */ it) =>
      lines.some(({ order, line, open }) => open > 0 && order === it.order && line === it.line);
    const gone = this.chosen.chosen.filter((it) => !isOpen(it));
    gone.forEach((it) => this.chosen.drop(it));
    return gone.map((it) => phrases.common.orderLine(orderInWords(it), it.line));
  }

  /** Notes whether there is typed work. */
  note() {
    const count = this.given.length;
    if (count) this.element.dataset.typed = phrases.cancelLines.what(count);
    else delete this.element.dataset.typed;
    this.element.toggleAttribute("data-unkept", !this.chosen.isKept);
  }

  /** The lines of which something is to be cancelled. */
  get given() {
    const some = this.rows.filter((it) => it.field.trimmed !== "");
    return some.map((line) => ({ line, order: line.order, quantity: wholeNumber(line.field.value) }));
  }

  fillAll() {
    for (const { field, open, ...line } of this.rows) {
      field.value = open ? String(open) : "";
      field.say("");
      this.chosen.choose(line, field.value);
    }
    this.note();
    this.rows[0].field.input.focus();
  }

  async review() {
    const waits = this.queue.list.unsettled.length > 0;
    const right = this.#areRight(({ field, open }) => wrongNumber(field.trimmed, open));
    const none = right && !this.given.length;
    const wrong = waits ? saying("warn", phrases.sending.first) : none ? saying("bad", phrases.cancelLines.giveOne) : null;
    this.first.replaceChildren(...(wrong ? [wrong] : []));
    if (none) this.rows[0].field.input.focus();
    if (wrong || !right || !(await this.#areOpen())) return;
    this.fields.disabled = true;
    this.summary.show(this.inSummary());
  }

  /** Checks each quantity; the first that is wrong gets the focus.
   * @param {(row: Row) => string} wrong */
  #areRight(wrong) {
    const right = this.rows.map((it) => check(it.field, wrong(it))).every(Boolean);
    if (!right) focusFirstWrong(this.rows.map((it) => it.field));
    return right;
  }

  /** Asks the hub what is open now, and checks that no more is to be cancelled. If something is typed meanwhile, that is checked by the
   * next press. */
  async #areOpen() {
    const typed = () => this.rows.map((it) => it.field.value).join();
    const before = typed();
    this.isAnswered = false;
    await look(async () => this.#know(await this.ask()));
    if (!this.element.isConnected || this.fields.disabled || typed() !== before) return false;
    return this.#areRight(({ field, open }) => (field.trimmed ? tooMuchInWords(wholeNumber(field.value), open, this.askedAt) : ""));
  }

  /** Shows what the hub says now of the lines.
   * @param {StatusLine[]} lines */
  #know(lines) {
    [this.askedAt, this.isAnswered] = [Date.now(), true];
    const now = (/** @type {Row} */ row) => lines.find((it) => !it.unsure && it.order === row.order && it.line === row.line);
    this.rows = this.rows.map((row) => ({ ...row, ...now(row) }));
    this.table.showAgain(this.rows);
  }

  inSummary() {
    const { given } = this;
    const rows = given.map(({ line, quantity }) => [
      phrases.cancelLines.inSummary(orderInWords(line), line.line, gtinAsPrinted(line.gtin), quantity, line.open),
    ]);
    const since = this.isAnswered ? "" : ` ${phrases.cancelLines.asOf(clockTime(this.askedAt))}`;
    return { lead: [phrases.cancelLines.lead(severalInWords(given), this.named), since], rows };
  }

  edit() {
    this.summary.hide();
    this.fields.disabled = false;
    this.rows[0].field.input.focus();
  }

  send() {
    if (!this.fields.disabled || this.element.hidden) return;
    this.element.hidden = true;
    delete this.element.dataset.typed;
    // the draft keeps what waits for its turn, and nothing else
    this.rows.filter((it) => it.field.trimmed === "").forEach((it) => this.chosen.drop(it));
    const words = this.given.map(({ line, order, quantity }) => ({
      line,
      quantity,
      what: cancellationInWords({ order, line: line.line, quantity }),
      begun: () => this.chosen.drop(line),
    }));
    this.queue.cancel(this.supplier, words);
    this.results.draw();
    this.results.said.focus({ preventScroll: true });
    this.results.said.scrollIntoView({ block: "center" });
  }
}

/** @param {string} text @param {number} open */
function wrongNumber(text, open) {
  return !open || text === "" || wholeNumber(text) >= 1 ? "" : phrases.cancelLines.giveANumber(open);
}

/** @returns {import("../parts/table.js").Column<Row>[]} */
const columns = () => [
  ...lineColumns(new Articles(), phrases.common.suppliersAnswer, ...WITHOUT),
  { title: phrases.cancelLines.toCancel, cell: ({ field }) => field.element, csv: ({ field }) => field.trimmed },
];
