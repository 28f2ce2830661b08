// @ts-check
// Keeps how much of each order line is on which pallet of a despatch, and so how much of the line is left.

import { wholeNumber } from "../parts/field.js";

/** @typedef {import("../hub/replies.js").StatusLine} StatusLine */
/** @typedef {{ open: number, placed: number }} Tally what of a line is open, and what of it is on the pallets of the form */

/** @type {WeakMap<StatusLine, string>} names are asked for very often */
const NAMES = new WeakMap();

/** A line of an order, as one name.
 * @param {StatusLine} line */
export function nameOf(line) {
  const name = NAMES.get(line) ?? `${line.order}\n${line.line}`;
  if (!NAMES.has(line)) NAMES.set(line, name);
  return name;
}

/** @param {string | undefined} text */
const quantityIn = (text) => wholeNumber(text ?? "") || 0;

/** The lines of all pallets together. Says by a `change` event, once for many changes, of which lines there is more or less on pallets. */
export class Ledger extends EventTarget {
  /** @type {Map<string, number>} */
  #open = new Map();
  /** @type {Map<string, number>} */
  #placed = new Map();
  /** @type {Set<string>} */
  #changed = new Set();
  /** @type {StatusLine[]} the lines of the chosen orders */
  lines = [];

  /** What is open now.
   * @param {StatusLine[]} lines */
  know(lines) {
    this.#open = new Map(lines.map((it) => [nameOf(it), it.open]));
  }

  /** @param {string} name of a line @returns {Tally} */
  tally(name) {
    return { open: this.#open.get(name) ?? 0, placed: this.#placed.get(name) ?? 0 };
  }

  /** What is open of a line and on no pallet; less than 0 if more is on pallets than is open.
   * @param {StatusLine} line */
  left(line) {
    const { open, placed } = this.tally(nameOf(line));
    return open - placed;
  }

  /** Notes that more of a line is on a pallet, or less.
   * @param {string} name @param {number} more */
  place(name, more) {
    this.#placed.set(name, (this.#placed.get(name) ?? 0) + more);
    if (!this.#changed.size) queueMicrotask(() => this.#tell());
    this.#changed.add(name);
  }

  #tell() {
    const names = this.#changed;
    this.#changed = new Set();
    this.dispatchEvent(new CustomEvent("change", { detail: names }));
  }
}

/** What is on one pallet: of each line the text that was typed. */
export class Load {
  #ledger;
  /** @type {Map<string, string>} */
  #texts = new Map();
  #written = "";
  /** how many lines, and how many pieces of them all, are on it */
  size = 0;
  pieces = 0;

  /** @param {Ledger} ledger */
  constructor(ledger) {
    this.#ledger = ledger;
  }

  /** The names of lines for which something was typed, be it a quantity or not, each with the text.
   * @returns {ReadonlyMap<string, string>} */
  get texts() {
    return this.#texts;
  }

  /** @param {StatusLine} line */
  text(line) {
    return this.#texts.get(nameOf(line)) ?? "";
  }

  /** @param {StatusLine} line @param {string | number} text 0 takes the line off the pallet */
  set(line, text) {
    this.#set(nameOf(line), text === 0 ? "" : String(text));
  }

  /** @param {string} name @param {string} text */
  #set(name, text) {
    const before = quantityIn(this.#texts.get(name));
    const after = quantityIn(text);
    if (text.trim()) this.#texts.set(name, text);
    else this.#texts.delete(name);
    this.#written = "";
    this.size += Math.sign(after) - Math.sign(before);
    this.pieces += after - before;
    this.#ledger.place(name, after - before);
  }

  /** The offered lines for which something was typed, be it a quantity or not. */
  get typed() {
    return this.#texts.size ? this.#ledger.lines.filter((it) => this.#texts.has(nameOf(it))) : [];
  }

  /** The lines that are on it. */
  get contents() {
    return this.typed.map((line) => ({ line, quantity: quantityIn(this.text(line)) })).filter((it) => it.quantity > 0);
  }

  /** Puts nothing but this on it.
   * @param {{ line: StatusLine, quantity: number }[]} contents */
  replace(contents) {
    this.keepOnly([]);
    for (const { line, quantity } of contents) this.set(line, quantity);
  }

  /** Forgets what was typed for other lines.
   * @param {StatusLine[]} lines */
  keepOnly(lines) {
    const kept = new Set(lines.map(nameOf));
    for (const name of [...this.#texts.keys()]) if (!kept.has(name)) this.#set(name, "");
  }

  /** The texts, as a draft keeps them. It is written once for many looks, as each key that is pressed keeps the draft. */
  get written() {
    this.#written ||= JSON.stringify([...this.#texts]);
    return this.#written;
  }
}
