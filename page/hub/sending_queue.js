// @ts-check
// Sends documents one after another. It stops at one that got no answer, and goes on when the answer comes or the person says so.

/** @typedef {import("./sending.js").Sending} Sending */
/** @typedef {"idle" | "running" | "paused"} QueueState */

/** @template {{ text: string, sending: Sending | null }} Item */
export class SendingQueue extends EventTarget {
  /** @param {import("./sent_list.js").SentList} list */
  constructor(list) {
    super();
    this.list = list;
    /** @type {Item[]} */
    this.items = [];
    /** @type {Item[]} those that were sent off, and wait for their turn */
    this.waiting = [];
    /** @type {QueueState} */
    this.state = "idle";
    /** @type {Set<Sending>} those without an answer that the queue does not wait for */
    this.passed = new Set();
    list.addEventListener("change", () => this.state === "paused" && !this.blocking.length && this.#run());
  }

  /** @param {QueueState} [state] */
  changed(state = this.state) {
    this.state = state;
    this.dispatchEvent(new Event("change"));
  }

  /** What has no answer, and is waited for. */
  get blocking() {
    return this.list.unsettled.filter((it) => !this.passed.has(it));
  }

  /** Those that can be sent off. */
  get ready() {
    return this.items.filter((it) => it.sending?.state === "review" && !this.waiting.includes(it));
  }

  /** Sends off what is ready. */
  send() {
    this.waiting.push(...this.ready);
    if (this.state === "idle") return this.#run();
    this.changed();
  }

  /** Goes on with the rest, though something has no answer. */
  proceed() {
    this.blocking.forEach((it) => this.passed.add(it));
    if (this.state === "paused") return this.#run();
  }

  async #run() {
    this.changed("running");
    while (this.waiting.length && !this.blocking.length) {
      const item = this.waiting.shift();
      await item?.sending?.send(item.text);
    }
    this.changed(this.waiting.length ? "paused" : "idle");
  }
}
