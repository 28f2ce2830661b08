// @ts-check
// Keeps what the hub said last of an order line of a supplier, and when.

/** @typedef {import("./replies.js").StatusLine} StatusLine */
/** @typedef {{ supplier: string, order: string, line: number }} Named */

export class KnownLine {
  #session;
  #asked = 0;
  #supplier = "";
  /** @type {StatusLine | null} */
  #line = null;
  at = 0;
  /** whether the hub has answered since it was asked last */
  isFresh = false;

  /** @param {import("../session.js").Session} session */
  constructor(session) {
    this.#session = session;
  }

  /** Asks the hub. If it does not answer, what it said before is still known.
   * @param {Named} named */
  async ask({ supplier, order, line }) {
    const turn = (this.#asked += 1);
    this.isFresh = false;
    const { lines } = await this.#session.status(supplier);
    if (turn !== this.#asked) return;
    this.#supplier = supplier;
    this.#line = lines.find((it) => !it.unsure && it.order === order && it.line === line) ?? null;
    [this.at, this.isFresh] = [Date.now(), true];
  }

  /** The line, or null if this is not the one that the hub was asked for, or if the hub does not know it.
   * @param {Named} named */
  of({ supplier, order, line }) {
    const isIt = this.#supplier === supplier && this.#line?.order === order && this.#line.line === line;
    return isIt ? this.#line : null;
  }
}
