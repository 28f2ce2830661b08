// @ts-check
// Cancellations of several lines, which are sent one after another, each with a reference of its own.

import { cancellationText } from "./cancellation.js";
import { SendingQueue } from "./sending_queue.js";
import { isSettled } from "./sending_states.js";

/** @typedef {import("./replies.js").StatusLine} StatusLine */
/** @typedef {{ line: StatusLine, quantity: number, what: string, begun: () => void }} Chosen `what` says it in words; `begun` is called
 * when its turn comes */
/** @typedef {Chosen & { supplier: string, text: string, sending: import("./sending.js").Sending }} Item */

/** How many lines are cancelled at once. */
export const MOST_AT_ONCE = 100;

/** @extends {SendingQueue<Item>} */
export class CancelQueue extends SendingQueue {
  /** Sends off the cancellations of these lines; earlier ones of the supplier that are answered are left to the list of what was sent.
   * @param {string} supplier @param {Chosen[]} chosen */
  cancel(supplier, chosen) {
    this.items = this.items.filter((it) => it.supplier !== supplier || !isSettled(it.sending.state));
    for (const it of chosen) {
      const sending = this.list.enqueue("cancellation", it.what);
      const { order, line } = it.line;
      const text = cancellationText({ supplier, reference: sending.facts.id, order, line, quantity: it.quantity });
      sending.addEventListener("change", it.begun, { once: true });
      this.items.push({ ...it, supplier, text, sending });
    }
    return this.send();
  }

  /** @param {string} supplier */
  of(supplier) {
    return this.items.filter((it) => it.supplier === supplier);
  }
}

/** @type {WeakMap<import("./sent_list.js").SentList, CancelQueue>} */
const QUEUES = new WeakMap();

/** The queue of a session, which goes on when its screen is left.
 * @param {import("./sent_list.js").SentList} list */
export function cancelQueueOf(list) {
  const queue = QUEUES.get(list) ?? new CancelQueue(list);
  QUEUES.set(list, queue);
  return queue;
}
