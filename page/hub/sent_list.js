// @ts-check
// What was sent in this session, the latest first. It is kept in the tab, so that a reload does not lose what has no answer.

import { newReference } from "../edi/references.js";
import { draftOf, forgetOthers, keepDraft, keepSent, sentOf } from "../kept.js";
import { bytesOf } from "./client.js";
import { KINDS } from "./kinds.js";
import { Sending } from "./sending.js";
import { TRANSITIONS, isSettled, isUnsettled } from "./sending_states.js";

/** @typedef {import("./sending.js").Facts} Facts */
/** @typedef {import("./kinds.js").Kind} Kind */

export class SentList extends EventTarget {
  /** @param {import("./client.js").Hub} hub */
  constructor(hub) {
    super();
    this.hub = hub;
    forgetOthers(hub.caller);
    /** @type {Sending[]} those of queues */
    this.queued = [];
    const kept = sentOf(hub.caller).filter(isKnown).sort((a, b) => b.sentAt - a.sentAt);
    /** @type {Sending[]} */
    this.sendings = kept.map((it) => this.#made(it.state === "unanswered" || !isUnsettled(it.state) ? it : interrupted(it)));
  }

  /** A document that is not sent yet; it is listed once it is.
   * @param {Kind} kind @param {string} what @param {string} [file] */
  begin(kind, what, file = "") {
    return this.#made({ id: newReference(), kind, what, file });
  }

  /** A document of a queue, which waits until its turn comes.
   * @param {Kind} kind @param {string} what @param {string} [file] */
  enqueue(kind, what, file = "") {
    const sending = this.begin(kind, what, file);
    this.queued.push(sending);
    sending.happen("review");
    return sending;
  }

  /** The first document of a queue that is not sent; null if there is none. */
  get next() {
    return this.queued.find((it) => it.state === "review") ?? null;
  }

  /** What may have been done, and has no answer. */
  get unsettled() {
    return this.sendings.filter((it) => it.isUnsettled);
  }

  /** @param {Partial<Facts> & { id: string, kind: Kind, what: string }} facts */
  #made(facts) {
    const sending = new Sending(facts, (text) => KINDS[facts.kind].ask(this.hub, bytesOf(text)));
    sending.addEventListener("change", () => this.#note(sending));
    return sending;
  }

  /** @param {Sending} sending */
  #note(sending) {
    const { state, facts } = sending;
    if (!isUnsettled(state) && !isSettled(state)) return;
    if (!this.sendings.includes(sending)) this.sendings.unshift(sending);
    if (isSettled(state)) this.#endDraft(sending);
    const settled = this.sendings.filter((it) => !it.isUnsettled).map((it) => it.facts.id);
    keepSent(this.hub.caller, facts, settled.reverse());
    this.dispatchEvent(new Event("change"));
  }

  /** What was not taken is a draft again, unless something else was typed there meanwhile.
   * @param {Sending} sending */
  #endDraft({ state, facts }) {
    const { draft } = facts;
    const { caller } = this.hub;
    facts.draft = null;
    if (draft && state !== "accepted" && !draftOf(caller, draft.name)) keepDraft(caller, draft.name, draft.content);
  }
}

// Another version of the page may have kept it.
/** @param {Facts} facts */
const isKnown = ({ kind, state }) => kind in KINDS && state in TRANSITIONS;

// It was on its way when the page was loaded again, so the answer was lost.
/** @param {Facts} facts @returns {Facts} */
const interrupted = (facts) => ({ ...facts, state: "unanswered", reason: "reload", tries: Math.max(1, facts.tries) });
