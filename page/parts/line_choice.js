// @ts-check
// The choice of several lines of a status, which are to be cancelled.

import { MOST_AT_ONCE } from "../hub/cancel_queue.js";
import { phrases } from "../language.js";
import { ChosenLines } from "../suppliers/chosen_lines.js";
import { actions, button, element } from "./dom.js";
import { orderInWords } from "./order_number.js";

/** @typedef {import("../hub/replies.js").StatusLine} StatusLine */

export class LineChoice {
  /** @param {import("../start.js").Context} context @param {string} supplier @param {StatusLine[]} lines */
  constructor({ session, go }, supplier, lines) {
    this.kept = new ChosenLines(session.hub.caller, supplier);
    /** @type {Map<StatusLine, HTMLInputElement>} the lines that can be chosen */
    this.ticks = new Map(lines.filter(canBeChosen).map((it) => [it, this.#tick(it)]));
    this.said = element("p", { role: "status", tabindex: "-1", class: "happened" }, phrases.lineChoice.hint(MOST_AT_ONCE));
    this.cancel = button("", () => go(`cancel-lines/${supplier}`), { class: "primary" });
    this.none = button(phrases.lineChoice.chooseNone, () => this.chooseNone());
    this.element = element("div", { class: "chosen card no-print" });
    this.draw();
  }

  /** @param {StatusLine} line */
  #tick(line) {
    const label = phrases.lineChoice.choose(orderInWords(line), line.line);
    const tick = /** @type {HTMLInputElement} */ (element("input", { type: "checkbox", "aria-label": label }));
    tick.checked = this.kept.of(line) !== undefined;
    tick.addEventListener("change", () => this.choose(line, tick.checked));
    return tick;
  }

  /** The tick of a line, or null if it cannot be chosen.
   * @param {StatusLine} line */
  cell(line) {
    const tick = this.ticks.get(line);
    return tick ? element("label", { class: "tick", title: phrases.lineChoice.chooseIt }, tick) : null;
  }

  get chosen() {
    return [...this.ticks].flatMap(([line, tick]) => (tick.checked ? [line] : []));
  }

  /** @param {StatusLine} line @param {boolean} isChosen */
  choose(line, isChosen) {
    const tick = /** @type {HTMLInputElement} */ (this.ticks.get(line));
    tick.checked = isChosen;
    const tooMany = this.chosen.length > MOST_AT_ONCE;
    if (tooMany) tick.checked = false;
    if (tick.checked) this.kept.choose(line);
    else this.kept.drop(line);
    this.draw(tooMany ? phrases.lineChoice.oneTooMany(orderInWords(line), line.line) : "");
  }

  /** @param {StatusLine[]} lines those that can be chosen, as many as fit */
  chooseAll(lines) {
    const some = lines.filter((it) => this.ticks.has(it) && !this.ticks.get(it)?.checked);
    const room = MOST_AT_ONCE - this.chosen.length;
    some.slice(0, room).forEach((it) => this.choose(it, true));
    this.draw(some.length > room ? phrases.lineChoice.tooMany(some.length - room) : "");
    this.said.focus({ preventScroll: true });
  }

  chooseNone() {
    this.chosen.forEach((it) => this.choose(it, false));
    this.said.focus({ preventScroll: true });
  }

  /** @param {string} [more] */
  draw(more = "") {
    const { chosen } = this;
    const open = chosen.reduce((all, it) => all + it.open, 0);
    const said = chosen.length ? `${phrases.lineChoice.chosen(chosen.length, open)} ${more}` : phrases.lineChoice.hint(MOST_AT_ONCE);
    this.said.textContent = said.trim();
    this.cancel.textContent = phrases.lineChoice.cancel(chosen.length);
    this.cancel.hidden = this.none.hidden = !chosen.length;
    this.element.classList.toggle("some", chosen.length > 0);
  }

  /** The bar under the table.
   * @param {() => StatusLine[]} shown the lines that are shown */
  bar(shown) {
    const all = button(phrases.lineChoice.chooseAll, () => this.chooseAll(shown()), { class: "quiet" });
    this.element.replaceChildren(this.said, actions(this.cancel, all, this.none));
    return this.ticks.size ? this.element : null;
  }
}

// Of an order of which the number is unsure each line is cancelled by itself, by the number with its blanks.
/** @param {StatusLine} line */
const canBeChosen = (line) => line.open > 0 && !line.unsure;
