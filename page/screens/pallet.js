// @ts-check
// A pallet in the form of a despatch: its SSCC, and how much of each open order line is on it. Collapsed it shows how much alone.

import { Load } from "../despatch/ledger.js";
import { isPrefix, isSscc, isUnder, withCheckDigit } from "../edi/identifiers.js";
import { ssccOf } from "../edi/sscc.js";
import { phrases } from "../language.js";
import { button, element, newId } from "../parts/dom.js";
import { Field, check } from "../parts/field.js";
import { PalletLines } from "./pallet_lines.js";
import { PalletTools } from "./pallet_tools.js";

/** @typedef {import("../despatch/ledger.js").Ledger} Ledger */

// so many lines are all listed, if nobody asked for anything else
const FEW = 12;

export class Pallet {
  /** @param {{ sscc: string, ledger: Ledger, articles: import("../articles.js").Articles, form: import("./pallet_tools.js").Form,
   *   isCollapsed?: boolean, wantsAll?: boolean | null }} words `wantsAll`: whether the person asked for all lines, null if for nothing */
  constructor({ sscc, ledger, articles, form, isCollapsed = false, wantsAll = null }) {
    this.ledger = ledger;
    this.load = new Load(ledger);
    this.proposed = sscc;
    this.isCollapsed = isCollapsed;
    this.wantsAll = wantsAll;
    this.isStale = true;
    this.isEmptyWrong = false;
    const hint = phrases.pallet.hint;
    this.sscc = new Field({ label: "SSCC", field: "SSCC", hint, value: sscc, inputmode: "numeric", maxlength: 48 });
    this.sscc.input.addEventListener("change", () => (this.sscc.value = this.number));
    const words = { type: "checkbox", id: newId("labelled"), class: "labelled", "data-field": "pallet.labelled" };
    this.labelled = /** @type {HTMLInputElement} */ (element("input", words));
    this.legend = element("legend", {});
    this.lines = new PalletLines(ledger, this.load, articles);
    this.tools = new PalletTools(this, form);
    const id = newId("on-pallet");
    this.toggle = button("", () => this.collapse(!this.isCollapsed), { class: "quiet toggle", "aria-controls": id });
    this.body = element("div", { class: "on-pallet", id }, element("div", { "data-apart": true }, this.lines.element), this.tools.element);
    const tick = element("label", { class: "choice label-tick" }, this.labelled, element("span", {}, phrases.pallet.labelled));
    const parts = [this.legend, this.sscc.element, tick, this.toggle, this.body];
    this.element = /** @type {HTMLFieldSetElement} */ (element("fieldset", { class: "pallet card" }, ...parts));
    this.drawHead();
  }

  /** The digits of the SSCC, however they are grouped or scanned. */
  get number() {
    return ssccOf(this.sscc.value);
  }

  /** Whether the label with its SSCC is printed already. */
  get isLabelled() {
    return this.labelled.checked;
  }

  /** Gives it an SSCC that the page proposes.
   * @param {string} sscc */
  propose(sscc) {
    this.proposed = sscc;
    this.sscc.value = sscc;
    this.sscc.say("");
  }

  /** @param {boolean} isCollapsed */
  collapse(isCollapsed) {
    if (this.isCollapsed === isCollapsed) return;
    this.isCollapsed = isCollapsed;
    this.draw();
  }

  get listsAll() {
    return this.wantsAll ?? this.ledger.lines.length <= FEW;
  }

  /** Lists all lines, or only those that are on it.
   * @param {boolean} wantsAll */
  listAll(wantsAll) {
    this.wantsAll = wantsAll;
    this.draw();
  }

  draw() {
    this.isStale = false;
    this.body.hidden = this.isCollapsed;
    const listed = this.listsAll ? this.ledger.lines : this.load.typed;
    this.lines.draw(this.isCollapsed ? [] : listed);
    this.body.classList.toggle("long", listed.length > FEW);
    this.tools.draw();
    this.drawHead();
  }

  drawHead() {
    const { size, pieces } = this.load;
    const wrongs = this.lines.wrongs.size;
    const on = size ? phrases.pallet.on(size, pieces) : phrases.pallet.nothingOnIt;
    const words = wrongs ? phrases.pallet.toCorrect(on, wrongs) : on;
    if (this.toggle.textContent !== words) this.toggle.textContent = words;
    this.element.classList.toggle("collapsed", this.isCollapsed);
    this.toggle.setAttribute("aria-expanded", String(!this.isCollapsed));
    this.toggle.classList.toggle("has-wrong", this.isWrong);
  }

  /** Shows what changed of the lines of these names.
   * @param {Set<string>} names */
  refresh(names) {
    this.lines.refresh(names);
    if (this.isEmptyWrong && this.load.size) {
      this.isEmptyWrong = false;
      this.lines.rows[0]?.field.say("");
    }
    this.drawHead();
  }

  /** The lines that are on it. */
  get contents() {
    return this.load.contents;
  }

  get fields() {
    return [this.sscc, ...this.lines.rows.map((it) => it.field)];
  }

  get isWrong() {
    return this.lines.wrongs.size > 0 || this.isEmptyWrong;
  }

  /** @param {{ prefix: string, used: Set<string>, others: Pallet[] }} known */
  check({ prefix, used, others }) {
    const right = check(this.sscc, wrongSscc(this.number, prefix, used, others));
    this.lines.check();
    this.isEmptyWrong = !this.lines.wrongs.size && !this.load.size && this.ledger.lines.length > 0;
    this.drawHead();
    return right && this.load.size > 0 && !this.isWrong;
  }

  /** Brings the fields into the page that say what is wrong with what is on it. */
  reveal() {
    if (this.isEmptyWrong && !this.load.typed.length) this.wantsAll = true;
    this.isCollapsed = false;
    this.draw();
    if (this.isEmptyWrong) this.lines.rows[0]?.field.say(phrases.pallet.nothing);
  }
}

/** @param {string} sscc @param {string} prefix @param {Set<string>} used @param {Pallet[]} others */
function wrongSscc(sscc, prefix, used, others) {
  if (!/^\d{17,18}$/.test(sscc)) return phrases.pallet.digits;
  if (!isSscc(sscc)) return phrases.pallet.lastDigit(withCheckDigit(sscc.slice(0, 17)).slice(-1));
  if (isPrefix(prefix) && !isUnder(sscc, prefix)) return phrases.pallet.otherPrefix(prefix);
  if (others.some((it) => it.number === sscc)) return phrases.pallet.twice;
  return used.has(sscc) ? phrases.pallet.used : "";
}
