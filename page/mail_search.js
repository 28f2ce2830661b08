// @ts-check
// Finds in the mailbox what Today needs, each time with a bounded number of requests. What is left over is looked up the next time.

import { MOST_TAKEN, lastEntry } from "./entries.js";
import { readList } from "./hub/replies.js";

/** @typedef {import("./session.js").Session} Session */
/** @typedef {import("./session.js").Entry} Entry */
/** @typedef {import("./hub/replies.js").MailEntry} MailEntry */

/** The most requests of one search, with the one for the status that comes before it. */
export const MOST_REQUESTS = 100;
// so that half of them are left for entries
const MOST_LISTS = 50;

class Spent extends Error {}

export class MailSearch {
  /** @type {Map<number, MailEntry>} the entries that lists named, as not taken */
  #listed = new Map();
  #lastListed = 0;
  #left = 0;
  #running = Promise.resolve();
  /** Whether the last search came to its end; null before the first.
   * @type {boolean | null} */
  isComplete = null;

  /** @param {Session} session */
  constructor(session) {
    this.session = session;
  }

  /** Looks up these orders, by their numbers without blanks at the end, and the new receiving advices if they are wanted. A search that
   * still runs comes first, so that nothing is asked for twice.
   * @param {Set<string>} orders @param {boolean} advices */
  search(orders, advices) {
    const done = this.#running.then(() => this.#search(orders, advices));
    this.#running = done.catch(() => {});
    return done;
  }

  /** @param {Set<string>} orders @param {boolean} advices */
  async #search(orders, advices) {
    this.#left = MOST_REQUESTS - 1;
    try {
      const isListed = await this.#list();
      for (const it of this.#untaken("ORDERS")) if (orders.has(it.document.trimEnd())) await this.entry(it.number);
      if (advices) for (const it of this.#untaken("RECADV").reverse()) await this.entry(it.number);
      await this.#lookThroughTaken(orders);
      this.isComplete = isListed;
    } catch (why) {
      if (!(why instanceof Spent)) throw why;
      this.isComplete = false;
    }
  }

  /** An entry, which counts if it has to be asked for.
   * @param {number} number */
  async entry(number) {
    const known = this.session.entries.get(number);
    if (known) return known;
    this.#spend();
    return this.session.entry(number);
  }

  #spend() {
    if (this.#left <= 0) throw new Spent();
    this.#left -= 1;
  }

  // The entries after those that were listed before; whether the list came to its end.
  async #list() {
    for (let lists = 0, more = true; more; lists += 1) {
      if (lists === MOST_LISTS) return false;
      this.#spend();
      const list = readList(await this.session.hub.mailAfter(this.#lastListed));
      for (const it of list.entries) this.#listed.set(it.number, it);
      this.#lastListed = Math.max(this.#lastListed, ...list.entries.map((it) => it.number));
      more = list.more && list.entries.length > 0;
    }
    return true;
  }

  /** @param {string} type */
  #untaken(type) {
    return [...this.#listed.values()].filter((it) => it.type === type && !this.session.taken.has(it.number));
  }

  // Orders that are not among the new entries, in the newest of those that are taken.
  /** @param {Set<string>} orders */
  async #lookThroughTaken(orders) {
    const known = this.#orders();
    const missing = new Set([...orders].filter((it) => !known.has(it)));
    if (!missing.size) return;
    const last = await lastEntry(this, Math.max(this.#lastListed, ...this.session.entries.keys()));
    for (let at = last, left = MOST_TAKEN; at > 0 && left > 0 && missing.size; at -= 1) {
      if (this.#listed.has(at)) continue;
      missing.delete((await this.entry(at))?.order?.document.trimEnd() ?? "");
      left -= 1;
    }
  }

  // The orders that were read or listed, by their numbers without blanks at the end.
  #orders() {
    const read = [...this.session.entries.values()].flatMap((it) => (it.order ? [{ number: it.number, document: it.order.document }] : []));
    const listed = [...this.#listed.values()].filter((it) => it.type === "ORDERS" && !this.session.entries.has(it.number));
    /** @type {Map<string, { number: number, document: string }[]>} */
    const orders = new Map();
    for (const it of [...read, ...listed]) {
      const number = it.document.trimEnd();
      orders.set(number, [...(orders.get(number) ?? []), it]);
    }
    return orders;
  }

  /** Says of an order number which entry has that order; null if none is known, or several that differ in blanks at the end. */
  entryOf() {
    const orders = this.#orders();
    return (/** @type {string} */ order) => {
      const found = orders.get(order.trimEnd()) ?? [];
      const exact = found.filter((it) => it.document === order);
      const [entry, ...others] = exact.length ? exact : found;
      return entry && !others.length ? entry.number : null;
    };
  }

  /** The pallets that new receiving advices name, each with the entry of the latest. */
  advices() {
    /** @type {Map<string, number>} */
    const found = new Map();
    for (const { number } of this.#untaken("RECADV")) {
      for (const { sscc } of this.session.entries.get(number)?.receipt?.units ?? []) found.set(sscc, number);
    }
    return found;
  }
}
