// @ts-check
// Holds the SSCCs of a form, so that no other tab of this browser proposes them. The browser keeps them as names of locks, which end with
// the tab; what is sent is announced to the tabs that are open. Nothing is stored.

import { isSscc } from "../edi/identifiers.js";

const NAME = "edihub.sscc";

/** A signal to stop, given after this many milliseconds.
 * @param {number} milliseconds */
function givenAfter(milliseconds) {
  const control = new AbortController();
  setTimeout(() => control.abort(), milliseconds);
  return control.signal;
}

export class HeldSsccs {
  /** @type {Map<string, () => void>} */
  #own = new Map();
  /** What the browser was asked for and has not answered yet: a form that asks twice is not another form.
   * @type {Map<string, Promise<boolean>>} */
  #asked = new Map();
  /** @type {Set<string>} */
  #sentElsewhere = new Set();
  #channel = new BroadcastChannel(NAME);

  constructor() {
    this.#channel.addEventListener("message", ({ data }) => {
      for (const it of Array.isArray(data) ? data : []) if (typeof it === "string" && isSscc(it)) this.#sentElsewhere.add(it);
    });
  }

  /** The SSCCs that forms of this browser hold, in this tab or another, but for these; and those that another tab has sent since this form
   * opened.
   * @param {Set<string>} but */
  async all(but) {
    const { held = [] } = (await navigator.locks?.query()) ?? /** @type {LockManagerSnapshot} */ ({});
    const names = held.flatMap(({ name = "" }) => (name.startsWith(`${NAME}.`) ? [name.slice(NAME.length + 1)] : []));
    return [...names.filter((it) => !but.has(it)), ...this.#sentElsewhere];
  }

  /** Holds an SSCC: false if another form holds it, and still does after this many milliseconds. A browser without locks holds nothing,
   * and the hub refuses what is used twice.
   * @param {string} sscc @param {number} [patience]
   * @returns {Promise<boolean>} */
  hold(sscc, patience = 0) {
    if (this.#own.has(sscc) || !navigator.locks) return Promise.resolve(true);
    const asked = this.#asked.get(sscc) ?? this.#ask(sscc, patience ? { signal: givenAfter(patience) } : { ifAvailable: true });
    this.#asked.set(sscc, asked);
    return asked;
  }

  /** @param {string} sscc @param {LockOptions} how
   * @returns {Promise<boolean>} */
  #ask(sscc, how) {
    /** @type {Promise<boolean>} */
    const answer = new Promise((done) => {
      /** Whether the form still wants it, now that the browser has answered. */
      const isWanted = () => this.#asked.get(sscc) === answer && this.#asked.delete(sscc);
      const kept = navigator.locks.request(`${NAME}.${sscc}`, how, (lock) => {
        const isKept = isWanted() && lock !== null;
        done(lock !== null);
        return isKept && new Promise((end) => this.#own.set(sscc, () => end(undefined)));
      });
      kept.catch(() => done(!isWanted()));
    });
    return answer;
  }

  /** Lets go of all but these.
   * @param {string[]} ssccs */
  keepOnly(ssccs) {
    for (const [sscc, end] of this.#own) {
      if (ssccs.includes(sscc)) continue;
      this.#own.delete(sscc);
      end();
    }
    for (const sscc of this.#asked.keys()) if (!ssccs.includes(sscc)) this.#asked.delete(sscc);
  }

  /** Tells the other tabs that these were sent.
   * @param {string[]} ssccs */
  announce(ssccs) {
    this.#channel.postMessage(ssccs);
  }

  /** Lets go of all: the form is left. */
  end() {
    this.keepOnly([]);
    this.#channel.close();
  }
}
