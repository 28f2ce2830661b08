// @ts-check
// What can be done with a pallet of the form: fill, copy, split, list its lines and remove it.

import { MOST_PALLETS } from "../despatch/pallet_rows.js";
import { phrases } from "../language.js";
import { actions, button, element } from "../parts/dom.js";
import { Field, check, wholeNumber } from "../parts/field.js";

/** @typedef {import("./pallet.js").Pallet} Pallet */
/** @typedef {{ copy: (from: Pallet) => Promise<string>, split: (from: Pallet, count: number) => Promise<string>,
 *   remove: (pallet: Pallet) => void, changed: () => void }} Form what the form does for a pallet, and how it says what it did */

export class PalletTools {
  /** @param {Pallet} pallet @param {Form} form */
  constructor(pallet, form) {
    this.pallet = pallet;
    this.form = form;
    this.count = new Field({ label: phrases.palletTools.count, inputmode: "numeric", maxlength: 3, class: "short" });
    this.said = element("span", { class: "said", role: "status" });
    this.list = button("", () => pallet.listAll(!pallet.listsAll), { class: "list" });
    const split = element(
      "div",
      { class: "split", "data-apart": true },
      this.count.element,
      button(phrases.palletTools.split, () => this.#split()),
    );
    this.element = element(
      "div",
      {},
      actions(
        button(phrases.palletTools.fill, () => this.#fill(), { class: "fill" }),
        button(phrases.palletTools.copy, async () => this.#say(await form.copy(pallet)), { class: "copy" }),
        this.list,
        button(phrases.palletTools.remove, () => form.remove(pallet), { class: "quiet remove" }),
      ),
      split,
      this.said,
    );
  }

  /** Says which lines the list of the pallet can show instead. */
  draw() {
    const { listsAll, ledger } = this.pallet;
    this.list.hidden = ledger.lines.length < 2;
    this.list.textContent = listsAll ? phrases.palletTools.listOwn : phrases.palletTools.listAll(ledger.lines.length);
  }

  /** @param {string} words */
  #say(words) {
    this.said.textContent = words;
    this.form.changed();
  }

  #fill() {
    const { ledger, load } = this.pallet;
    for (const line of ledger.lines) {
      const quantity = ledger.left(line) + (wholeNumber(load.text(line)) || 0);
      load.set(line, Math.max(0, quantity));
    }
    this.pallet.draw();
    this.#say("");
  }

  async #split() {
    const count = wholeNumber(this.count.value);
    const { pieces } = this.pallet.load;
    const wrong = wrongCount(count, pieces);
    this.#say("");
    if (!check(this.count, wrong)) return this.count.input.focus();
    const said = await this.form.split(this.pallet, count);
    this.count.value = "";
    this.#say(said);
  }
}

/** @param {number} count @param {number} pieces */
function wrongCount(count, pieces) {
  if (!(count >= 2 && count <= MOST_PALLETS)) return phrases.palletTools.giveANumber(MOST_PALLETS);
  if (!pieces) return phrases.palletTools.nothingOnIt;
  return count > pieces ? phrases.palletTools.tooFew(pieces) : "";
}
