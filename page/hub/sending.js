// @ts-check
// Sends one document, by the states of sending_states.js. Its bytes never change once it is sent, so that sending them again is safe. If a
// try gets no answer, the page sends them once more by itself; after that the person decides.

import { isDenial } from "./answers.js";
import { Broken, Refused } from "./client.js";
import { KINDS } from "./kinds.js";
import { after, isOnItsWay, isSettled, isUnsettled, isWaiting } from "./sending_states.js";

/** @typedef {import("./sending_states.js").State} State */
/** @typedef {import("./sending_states.js").Event} Happening */
/** @typedef {import("./kinds.js").Kind} Kind */
/** @typedef {import("./kinds.js").Verdict} Verdict */
/** @typedef {import("./answers.js").Reason} Reason */
/**
 * @typedef {{ id: string, kind: Kind, what: string, file: string, state: State, text: string, reply: string, reason: Reason | "",
 *   tries: number, sentAt: number, until: number, draft: { name: string, content: unknown } | null }} Facts
 * `until` is the moment before which it is not sent again; `draft` is what was typed, for a refusal
 */

const PAUSE = 1_500;

/** @type {(milliseconds: number) => Promise<void>} */
const clock = (milliseconds) => new Promise((done) => setTimeout(done, milliseconds));

export class Sending extends EventTarget {
  /** @param {Partial<Facts> & { id: string, kind: Kind, what: string }} facts
   * @param {(text: string) => Promise<string>} ask
   * @param {typeof clock} [pause] */
  constructor(facts, ask, pause = clock) {
    super();
    /** @type {Facts} */
    this.facts = { file: "", state: "empty", text: "", reply: "", reason: "", tries: 0, sentAt: 0, until: 0, draft: null, ...facts };
    this.ask = ask;
    this.pause = pause;
  }

  get state() {
    return this.facts.state;
  }

  get isUnsettled() {
    return isUnsettled(this.state);
  }

  /** What the hub's answer says, once there is one. */
  get verdict() {
    return isSettled(this.state) ? KINDS[this.facts.kind].read(this.facts.reply) : null;
  }

  /** Lets something happen; false if it does not count in this state.
   * @param {Happening} event @param {Partial<Facts>} [facts] */
  happen(event, facts = {}) {
    const state = after(this.state, event);
    if (!state) return false;
    Object.assign(this.facts, facts, { state });
    this.dispatchEvent(new Event("change"));
    return true;
  }

  /** Sends this text; from now on it does not change.
   * @param {string} text @param {Partial<Facts>} [facts] */
  async send(text, facts = {}) {
    if (this.happen("send", { ...facts, text, sentAt: Date.now() })) await this.#run();
  }

  /** Sends the same again, not before the moment that the hub's front asked to wait for. */
  async again() {
    const rest = Math.max(0, this.facts.until - Date.now());
    if (!this.happen("again")) return;
    if (rest) await this.pause(rest);
    this.happen("resume");
    await this.#run();
  }

  async #run() {
    while (isOnItsWay(this.state)) {
      const { event, wait, ...facts } = await this.#attempt();
      this.happen(event, { ...facts, tries: this.facts.tries + 1, until: wait ? Date.now() + wait : 0 });
      if (!isWaiting(this.state)) continue;
      await this.pause(wait || PAUSE);
      this.happen("resume");
    }
  }

  /** @returns {Promise<{ event: Happening, reply: string, reason: Reason | "", wait: number }>} */
  async #attempt() {
    try {
      const reply = await this.ask(this.facts.text);
      const verdict = KINDS[this.facts.kind].read(reply);
      const event = verdict?.outcome === "refused" ? "refuse" : "accept";
      return verdict ? { event, reply, reason: "", wait: 0 } : { event: "break", reply, reason: "unreadable", wait: 0 };
    } catch (why) {
      return failed(why);
    }
  }
}

/** @param {unknown} why @returns {{ event: Happening, reply: string, reason: Reason | "", wait: number }} */
function failed(why) {
  if (why instanceof Refused) {
    const denied = isDenial(why.status, why.body);
    return { event: denied ? "deny" : "break", reply: why.message, reason: denied ? "" : "unreadable", wait: 0 };
  }
  if (!(why instanceof Broken)) return { event: "break", reply: String(why), reason: "connection", wait: 0 };
  return { event: why.reason === "too many" ? "hold" : "break", reply: why.message, reason: why.reason, wait: why.wait };
}
