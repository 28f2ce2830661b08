// @ts-check
// The files that were chosen, in their order, which are sent one after another.

import { readAnySpelling } from "../edi/any_spelling.js";
import { textOfBytes } from "./client.js";
import { SendingQueue } from "./sending_queue.js";

/** @typedef {{ name: string, wrong: string, text: string, sending: import("./sending.js").Sending | null }} Item a file; `wrong` is why it
 * cannot be sent */

// the longest body that a hub takes: what is longer would be sent for nothing
export const LONGEST = 1_048_576;

/** @extends {SendingQueue<Item>} */
export class UploadQueue extends SendingQueue {
  reading = Promise.resolve();

  /** How many files cannot be sent. */
  get wrong() {
    return this.items.filter((it) => it.wrong).length;
  }

  /** Reads files in the order in which they are chosen; one that cannot be read does not hold up the others.
   * @param {Iterable<File>} files */
  choose(files) {
    for (const file of [...files]) this.reading = this.reading.then(() => this.#take(file));
  }

  /** @param {File} file */
  async #take(file) {
    this.items.push(await this.#read(file));
    this.changed();
  }

  /** @param {File} file @returns {Promise<Item>} */
  async #read(file) {
    const item = { name: file.name, wrong: "", text: "", sending: null };
    if (file.size > LONGEST) return { ...item, wrong: "too large" };
    try {
      const text = textOfBytes(await file.arrayBuffer());
      return { ...item, text, sending: this.list.enqueue("file", file.name, file.name) };
    } catch {
      return { ...item, wrong: "unreadable" };
    }
  }

  /** @param {Item} item that is not sent */
  remove(item) {
    this.items.splice(this.items.indexOf(item), 1);
    // its row is taken out with the button that was pressed, so that the focus can go on from there
    this.changed();
    item.sending?.happen("edit");
  }
}

/** How many messages of each type a file has, or "" if the page cannot read it.
 * @param {string} text */
export function contentInWords(text) {
  const messages = readAnySpelling(text)?.messages ?? [];
  const types = messages.map((it) => it.type);
  return [...new Set(types)].map((type) => `${types.filter((it) => it === type).length} ${type}`).join(", ");
}
