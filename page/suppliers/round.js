// @ts-check
// Asks the hub for the status of suppliers, one after another and each by one request. One that fails does not hold up the others.

import { inWords } from "../hub/answers.js";
import { Broken, Refused } from "../hub/client.js";
import { readStatus } from "../hub/replies.js";
import { isOpen } from "../hub/status_kinds.js";
import { phrases } from "../language.js";
import { figuresOf } from "./figures.js";

/** @typedef {import("./figures.js").Figures} Figures */
/** @typedef {import("../hub/replies.js").StatusLine} StatusLine */
/** @typedef {{ at: number, figures: Figures | null, open: StatusLine[], text: string, wrong: (() => string) | null }} Result what one
 * supplier's request brought: `open` has the lines with something open, `text` the whole report, `wrong` says why there is none */

// The front takes 600 requests a minute from one address (examples/front/haproxy.cfg): so no more than 500 are asked.
const EACH = 120;

export class Round extends EventTarget {
  /** @type {AbortController | null} */
  #stop = null;

  /** @param {import("../hub/client.js").Hub} hub */
  constructor(hub) {
    super();
    this.hub = hub;
    /** @type {Map<string, Result>} by GLN, as they were last asked for */
    this.results = new Map();
    /** Of how many the status is asked for. */
    this.total = 0;
    /** How many of these were asked. */
    this.done = 0;
    /** How many brought none. */
    this.failed = 0;
    /** The moment until which the hub's front asked to wait; 0 if it did not. */
    this.until = 0;
  }

  get isRunning() {
    return this.#stop !== null;
  }

  /** Asks for the status of these, in their order.
   * @param {string[]} glns */
  async run(glns) {
    if (this.isRunning) return;
    const stop = new AbortController();
    this.#stop = stop;
    [this.total, this.done, this.failed] = [glns.length, 0, 0];
    this.#changed();
    for (const gln of glns) {
      const rest = pause(EACH, stop.signal);
      const result = await this.#resultOf(gln, stop.signal);
      if (stop.signal.aborted) return;
      this.results.set(gln, result);
      this.done += 1;
      if (result.wrong) this.failed += 1;
      this.#changed();
      await rest;
      if (stop.signal.aborted) return;
    }
    this.stop();
  }

  /** Stops at once; what was fetched stays. */
  stop() {
    this.#stop?.abort();
    this.#stop = null;
    this.until = 0;
    this.#changed();
  }

  /** Stops, and forgets what was fetched of any others.
   * @param {string[]} glns */
  keep(glns) {
    const kept = new Set(glns);
    for (const gln of this.results.keys()) if (!kept.has(gln)) this.results.delete(gln);
    this.stop();
  }

  #changed() {
    this.dispatchEvent(new Event("change"));
  }

  /** @param {string} gln @param {AbortSignal} stop @returns {Promise<Result>} */
  async #resultOf(gln, stop) {
    try {
      return read(await this.#asked(gln, stop));
    } catch (why) {
      return { at: Date.now(), figures: null, open: [], text: "", wrong: () => wrongInWords(why) };
    }
  }

  // What the front turned away before the hub saw it is asked for again, once, when the front said.
  /** @param {string} gln @param {AbortSignal} stop */
  async #asked(gln, stop) {
    try {
      return await this.hub.statusOnce(gln, stop);
    } catch (why) {
      if (!(why instanceof Broken) || !why.wait) throw why;
      this.until = Date.now() + why.wait;
      this.#changed();
      await pause(why.wait, stop);
      this.until = 0;
      return this.hub.statusOnce(gln, stop);
    }
  }
}

/** @param {number} milliseconds @param {AbortSignal} stop ends it at once @returns {Promise<void>} */
const pause = (milliseconds, stop) =>
  new Promise((done) => {
    setTimeout(done, milliseconds);
    stop.addEventListener("abort", () => done());
  });

/** @param {string} text @returns {Result} */
function read(text) {
  const status = readStatus(text);
  if (status.raw.length) return { at: Date.now(), figures: null, open: [], text: "", wrong: () => phrases.round.unreadable };
  return { at: Date.now(), figures: figuresOf(status), open: status.lines.filter(isOpen), text, wrong: null };
}

/** @param {unknown} why */
function wrongInWords(why) {
  if (why instanceof Refused && why.status === 404) return phrases.round.unknown;
  if (why instanceof Refused && why.status === 403) return phrases.round.denied;
  if (why instanceof Broken) return phrases.round.noReply(inWords(why.reason));
  return why instanceof Error ? why.message : String(why);
}
