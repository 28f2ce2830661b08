// @ts-check
// The choice of the orders that a despatch is for, and what is wrong with it.

import { isUnanswered } from "../hub/status_kinds.js";
import { phrases } from "../language.js";
import { element, newId } from "../parts/dom.js";
import { orderNumber } from "../parts/order_number.js";

/** @typedef {import("../hub/replies.js").StatusLine} StatusLine */

export class OrderChoice {
  /** @param {StatusLine[]} lines those that are open @param {string | null} order to begin with @param {() => void} changed */
  constructor(lines, order, changed) {
    const orders = [...new Set(lines.map((it) => it.order))];
    this.chosen = new Set(orders.filter((it) => it === order));
    this.changed = changed;
    const id = newId("orders");
    this.wrong = element("p", { class: "wrong", id, role: "alert" });
    const choices = orders.map((it) => this.#choice(it, lines.filter((line) => line.order === it), id));
    this.inputs = choices.map((it) => it.input);
    this.input = this.inputs[0];
    const legend = element("legend", {}, phrases.orderChoice.legend);
    const words = { class: "orders", "data-field": "orderChoice.legend" };
    const hint = lines.some(isUnanswered) ? element("p", { class: "hint" }, phrases.orderChoice.unanswered) : null;
    this.element = element("fieldset", words, legend, ...choices.map((it) => it.element), hint, this.wrong);
  }

  /** @param {string} order @param {StatusLine[]} lines @param {string} wrong the identifier of what is wrong */
  #choice(order, lines, wrong) {
    const words = { type: "checkbox", id: newId("order"), value: order, "data-field": order, "aria-describedby": wrong };
    const input = /** @type {HTMLInputElement} */ (element("input", words));
    input.checked = this.chosen.has(order);
    input.addEventListener("change", () => {
      if (input.checked) this.chosen.add(order);
      else this.chosen.delete(order);
      this.wrong.textContent = "";
      this.changed();
    });
    const pieces = lines.reduce((all, it) => all + it.open, 0);
    const open = ` ${phrases.orderChoice.open(lines.length, pieces, lines.filter(isUnanswered).length)}`;
    const said = element("span", {}, orderNumber(lines[0]), element("small", {}, open));
    return { input, element: element("label", { class: "choice" }, input, said) };
  }

  /** Chooses these orders too.
   * @param {string[]} orders */
  choose(orders) {
    const missing = new Set(orders.filter((it) => !this.chosen.has(it)));
    for (const input of this.inputs) if (missing.has(input.value)) input.checked = true;
    missing.forEach((it) => this.chosen.add(it));
    this.wrong.textContent = "";
    if (missing.size) this.changed();
  }

  /** @param {string} order */
  has(order) {
    return this.chosen.has(order);
  }

  get isWrong() {
    return this.wrong.textContent !== "";
  }

  check() {
    this.wrong.textContent = this.chosen.size ? "" : phrases.orderChoice.chooseOne;
    return !this.isWrong;
  }
}
