// @ts-check
// Knows the suppliers by name: from a list that the planner gave to this tab, or else from one that is beside the page.

import { within } from "../hub/patience.js";
import { keepSuppliers, suppliersOf } from "../kept.js";
import { phrases } from "../language.js";
import { readSuppliers, textOfFile } from "./file.js";

/** @typedef {import("./file.js").Supplier} Supplier */

/** Where an operator puts the list, beside `index.html`. */
export const BESIDE = "suppliers.csv";
const PATIENCE = 15_000;
// the status of an answer that there is no such file
const NONE = 404;
// a list of as many suppliers as a hub takes is much shorter
const LONGEST = 1_048_576;
/** @type {RequestInit} */
const WORDS = { cache: "no-cache", credentials: "omit", redirect: "error", referrerPolicy: "no-referrer" };

export class SupplierList extends EventTarget {
  /** @param {string} caller the retailer's GLN */
  constructor(caller) {
    super();
    this.caller = caller;
    /** @type {Supplier[]} */
    this.suppliers = [];
    /** @type {string[]} the rows that were left out */
    this.wrong = [];
    /** The name of the file, or "" if there is no list. */
    this.file = "";
    this.isBeside = false;
    /** whether the tab keeps the list over a reload */
    this.isKept = true;
    /** whether there may be a list beside the page that could not be read */
    this.isUnread = false;
    /** @type {Promise<void> | null} */
    this.loading = null;
  }

  /** Looks for a list, once. */
  load() {
    this.loading ??= this.#load();
    return this.loading;
  }

  async #load() {
    const kept = suppliersOf(this.caller);
    if (kept) return this.#take(kept.file, kept.text);
    try {
      const response = await fetch(BESIDE, { ...WORDS, signal: within(PATIENCE) });
      if (response.ok) this.#take(BESIDE, textOfFile(await response.arrayBuffer()), { isBeside: true });
      else if (response.status !== NONE) this.#miss();
    } catch {
      this.#miss();
    }
  }

  #miss() {
    // the next screen looks again
    this.loading = null;
    this.isUnread = true;
    this.dispatchEvent(new Event("change"));
  }

  /** Takes a list from a file; if it names no supplier, the list stays as it was.
   * @param {File} file */
  async choose(file) {
    const text = file.size > LONGEST ? "" : textOfFile(await file.arrayBuffer());
    const { suppliers, wrong } = readSuppliers(text);
    if (!suppliers.length) return this.#refuse(file.name, wrong);
    const isKept = keepSuppliers(this.caller, { file: file.name, text });
    this.#take(file.name, text, { isKept });
  }

  /** @param {string} file @param {string[]} wrong */
  #refuse(file, wrong) {
    this.wrong = [phrases.supplierList.namesNone(file), ...wrong];
    this.dispatchEvent(new Event("change"));
  }

  /** @param {string} file @param {string} text @param {{ isBeside?: boolean, isKept?: boolean }} how */
  #take(file, text, { isBeside = false, isKept = true } = {}) {
    const { suppliers, wrong } = readSuppliers(text);
    Object.assign(this, { suppliers, wrong, file, isBeside, isKept, isUnread: false });
    this.dispatchEvent(new Event("change"));
  }

  /** @param {string} gln */
  nameOf(gln) {
    return this.suppliers.find((it) => it.gln === gln)?.name ?? "";
  }
}
