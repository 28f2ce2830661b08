// @ts-check
// The lines of a supplier that are chosen to be cancelled, with how many of each. The tab keeps them as a draft until they are sent.

import { draftOf, dropDraft, keepDraft } from "../kept.js";

/** @typedef {{ order: string, line: number }} Line */
/** @typedef {Line & { quantity: string }} Chosen `quantity` is what was typed */

export class ChosenLines {
  /** @param {string} caller @param {string} supplier */
  constructor(caller, supplier) {
    this.caller = caller;
    this.name = `cancel-lines/${supplier}`;
    /** @type {Chosen[]} */
    this.chosen = draftOf(caller, this.name) ?? [];
    /** whether the browser had room for them */
    this.isKept = true;
  }

  /** @param {Line} wanted @returns {Chosen | undefined} */
  of({ order, line }) {
    return this.chosen.find((it) => it.order === order && it.line === line);
  }

  /** Chooses a line, or changes its quantity.
   * @param {Line} line @param {string} [quantity] */
  choose({ order, line }, quantity = "") {
    const known = this.of({ order, line });
    if (known) known.quantity = quantity;
    else this.chosen.push({ order, line, quantity });
    this.#keep();
  }

  /** @param {Line} line */
  drop(line) {
    const known = this.of(line);
    this.chosen = this.chosen.filter((it) => it !== known);
    this.#keep();
  }

  #keep() {
    if (!this.chosen.length) dropDraft(this.caller, this.name);
    this.isKept = !this.chosen.length || keepDraft(this.caller, this.name, this.chosen);
  }
}
