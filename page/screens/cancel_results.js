// @ts-check
// Says line by line what became of the cancellations of a supplier that were sent at once.

import { Articles } from "../articles.js";
import { isSettled } from "../hub/sending_states.js";
import { phrases } from "../language.js";
import { actions, button, element, figure, link, notice, saying } from "../parts/dom.js";
import { orderNumber } from "../parts/order_number.js";
import { Table } from "../parts/table.js";
import { verdictInFile, verdictPlace } from "../parts/verdict.js";
import { lineColumns } from "./status.js";

/** @typedef {import("../hub/cancel_queue.js").CancelQueue} CancelQueue */
/** @typedef {import("../hub/cancel_queue.js").Item} Item */

export class CancelResults {
  /** @param {CancelQueue} queue @param {string} supplier */
  constructor(queue, supplier) {
    this.queue = queue;
    this.supplier = supplier;
    this.said = element("div", { class: "happened", role: "status", tabindex: "-1" });
    this.table = new Table({ caption: phrases.cancelResults.caption, kind: "sent", columns: columns(), rows: queue.of(supplier) });
    const next = actions(link(phrases.common.statusOfThisSupplier, `supplier/${supplier}`, { class: "button" }));
    this.title = element("h2", { hidden: true }, phrases.cancelResults.title);
    this.body = element("div", { hidden: true }, this.table.element, next);
    this.element = element("section", {}, this.title, this.said, this.body);
    this.drawn = "";
    this.draw();
  }

  /** Follows the queue; returns what ends that. */
  follow() {
    const draw = () => this.draw();
    this.queue.addEventListener("change", draw);
    return () => this.queue.removeEventListener("change", draw);
  }

  draw() {
    const items = this.queue.of(this.supplier);
    const isOther = items.length !== this.table.rows.length || items.some((it, at) => it !== this.table.rows[at]);
    if (isOther) this.table.show(items);
    this.title.hidden = this.body.hidden = !items.length;
    const drawn = items.length ? `${this.queue.state} ${inWords(items)}` : "";
    if (drawn === this.drawn) return;
    this.drawn = drawn;
    const focused = this.said.contains(document.activeElement);
    this.said.replaceChildren(this.queue.state === "paused" ? this.paused() : saying(kindOf(items), inWords(items)));
    if (focused) this.said.focus({ preventScroll: true });
  }

  paused() {
    const rest = button(phrases.common.continueWithTheRest, () => void this.queue.proceed());
    return notice("warn", element("p", {}, phrases.cancelResults.paused), rest);
  }
}

/** @param {Item[]} items */
const isDone = (items) => items.every((it) => isSettled(it.sending.state));

/** @param {Item[]} items */
const accepted = (items) => items.filter((it) => it.sending.state === "accepted").length;

/** @param {Item[]} items */
const kindOf = (items) => (!isDone(items) ? "plain" : accepted(items) === items.length ? "good" : "bad");

/** @param {Item[]} items */
function inWords(items) {
  if (!isDone(items)) return phrases.cancelResults.sending(items.length);
  const done = accepted(items);
  return phrases.cancelResults.done(items.length, done, items.length - done);
}

/** @returns {import("../parts/table.js").Column<Item>[]} */
function columns() {
  const [, , article] = lineColumns(new Articles(), "");
  const result = (/** @type {Item} */ { sending }) => verdictPlace(sending, undefined, null);
  return [
    { title: phrases.common.order, cell: ({ line }) => orderNumber(line), value: ({ line }) => line.order },
    { title: phrases.common.line, cell: ({ line }) => line.line, value: ({ line }) => line.line },
    { title: article.title, kind: article.kind, cell: ({ line }) => article.cell(line), value: ({ line }) => line.gtin },
    { title: phrases.common.cancelled, cell: ({ quantity }) => figure(quantity), value: ({ quantity }) => quantity, number: true },
    { title: phrases.common.result, cell: result, csv: ({ sending }) => verdictInFile(sending), kind: "long" },
  ];
}
