// @ts-check
// Knows on which day delivery of an order is wanted, from the files of ORDERS that the planner gave to this tab. A status has no dates.

import { readAnySpelling } from "../edi/any_spelling.js";
import { namesOf } from "../edi/document_names.js";
import { requestedDay } from "../edi/requested.js";

/** @param {string} supplier @param {string} order */
const nameOf = (supplier, order) => `${supplier}\n${order.trimEnd()}`;

export class WantedDays extends EventTarget {
  /** @type {Map<string, Map<string, string>>} of each order as a status names it, the days of those that differ in blanks at the end */
  #days = new Map();
  /** @type {Set<string>} */
  #known = new Set();

  /** How many orders have a day. */
  get size() {
    return this.#days.size;
  }

  /** Learns from a file, and returns how many of its orders name a day, and how many do not; null if the page cannot read it.
   * @param {string} text */
  learn(text) {
    const orders = readAnySpelling(text)?.messages.filter((it) => it.type === "ORDERS");
    if (!orders?.length) return null;
    const dated = orders.filter((it) => this.#note(namesOf(it), requestedDay(it)));
    this.dispatchEvent(new Event("change"));
    return { dated: dated.length, undated: orders.length - dated.length };
  }

  /** Learns from a file that was sent, once.
   * @param {string} id @param {string} text */
  learnOnce(id, text) {
    if (this.#known.has(id)) return;
    this.#known.add(id);
    this.learn(text);
  }

  /** @param {{ document: string, supplier: string }} names @param {string} day */
  #note({ document, supplier }, day) {
    if (!day) return false;
    const name = nameOf(supplier, document);
    this.#days.set(name, (this.#days.get(name) ?? new Map()).set(document, day));
    return true;
  }

  /** The day as CCYYMMDD, or "" if it is not known, or not the same for orders that differ only in blanks at the end.
   * @param {string} supplier @param {string} order */
  dayOf(supplier, order) {
    const days = new Set(this.#days.get(nameOf(supplier, order))?.values());
    return days.size === 1 ? [...days][0] : "";
  }
}
