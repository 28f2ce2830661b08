// @ts-check
// Who is signed in, and what this tab knows of the hub. Over a reload the tab keeps GLN and key (kept_sign_in.js), drafts and what was
// sent (kept.js); all else is in memory alone.

import { readOrders } from "./entries.js";
import { Hub, Refused } from "./hub/client.js";
import { withExactOrders } from "./hub/order_numbers.js";
import { readList, readStatus } from "./hub/replies.js";
import { SentList } from "./hub/sent_list.js";
import { phrases } from "./language.js";
import { MailSearch } from "./mail_search.js";
import { readInterchange } from "./edi/envelope.js";
import { readOrder } from "./edi/order.js";
import { readReceipt } from "./edi/receipt.js";

/** @typedef {{ number: number, text: string, interchange: import("./edi/envelope.js").Interchange | null,
 *   order: import("./edi/order.js").Order | null, receipt: import("./edi/receipt.js").Receipt | null }} Entry */

export class Session {
  /** @param {Hub} hub @param {"supplier" | "retailer"} role */
  constructor(hub, role) {
    this.hub = hub;
    this.role = role;
    /** @type {Map<number, Entry>} */
    this.entries = new Map();
    /** @type {Set<number>} */
    this.taken = new Set();
    /** @type {Set<string>} the order numbers that the mailbox was searched for */
    this.searched = new Set();
    this.sent = new SentList(hub);
    this.mail = new MailSearch(this);
    this.prefix = "";
    this.firstSerial = "";
    this.supplier = "";
  }

  /** The session of this GLN and key, or null if the hub does not know them together. Throws if the answer is not one that a hub gives.
   * @param {string} gln @param {string} key */
  static async begin(gln, key) {
    const hub = new Hub(gln, key);
    if ((await answered(() => hub.mailAfter(0), isList)) === 200) return new Session(hub, "supplier");
    // the retailer has no status of its own: it is told `unknown`, and who is not known `denied`
    return (await answered(() => hub.statusOf(gln), isNothing)) === 404 ? new Session(hub, "retailer") : null;
  }

  /** Entry n of the mailbox, or null where there is none. What an entry says never changes, so it is asked for once.
   * @param {number} number */
  async entry(number) {
    const known = this.entries.get(number);
    if (known) return known;
    try {
      const entry = entryOf(number, await this.hub.mailItem(number));
      this.entries.set(number, entry);
      return entry;
    } catch (why) {
      if (why instanceof Refused && why.status === 404) return null;
      throw why;
    }
  }

  /** All entries that are not taken. */
  async untaken() {
    const entries = [];
    const raw = [];
    for (let after = 0, more = true; more; ) {
      const list = readList(await this.hub.mailAfter(after));
      entries.push(...list.entries);
      raw.push(...list.raw);
      more = list.more && list.entries.length > 0;
      after = list.entries[list.entries.length - 1]?.number ?? 0;
    }
    return { entries, raw };
  }

  /** The status of the supplier who is signed in, with the exact order numbers of these lines at least; that of a supplier that the
   * retailer names shows no blanks at the end of a number.
   * @param {string} [supplier]
   * @param {(line: import("./hub/replies.js").StatusLine) => boolean} [wanted] */
  async status(supplier, wanted = () => false) {
    const status = readStatus(await (supplier ? this.hub.statusOf(supplier) : this.hub.status()));
    const orders = () => (supplier ? [] : this.orders);
    const left = () => {
      const known = new Set(orders().map((it) => it.document));
      const unknown = withExactOrders(status.lines, orders()).filter((it) => it.unsure || (wanted(it) && !known.has(it.order)));
      return unknown.filter((it) => !this.searched.has(it.order));
    };
    const numbers = new Set(supplier ? [] : left().map((it) => it.order));
    await readOrders(this, numbers, () => !left().length);
    // what was not found would not be found again
    numbers.forEach((it) => this.searched.add(it));
    return { ...status, lines: withExactOrders(status.lines, orders()) };
  }

  /** The status as the hub reports it, by one request: without the blanks at the end of order numbers. */
  async report() {
    return readStatus(await this.hub.status());
  }

  /** The orders that were read. */
  get orders() {
    return [...this.entries.values()].flatMap((it) => it.order ?? []);
  }

  /** The GLNs of hub and buyer, which the first entry of the mailbox names; null while there is none. */
  async parties() {
    const first = await this.entry(1);
    const buyer = first?.order?.buyer || first?.receipt?.buyer;
    return first?.interchange && buyer ? { hub: first.interchange.sender, buyer } : null;
  }
}

/** @param {number} number @param {string} text @returns {Entry} */
function entryOf(number, text) {
  const interchange = readInterchange(text);
  const message = interchange?.messages.length === 1 ? interchange.messages[0] : null;
  return { number, text, interchange, order: message && readOrder(message), receipt: message && readReceipt(message) };
}

/** @param {string} text */
const isList = (text) => /(^|\n)(end|more)\n$/.test(text) && !readList(text).raw.length;
const isNothing = () => false;

// The status of an answer: 200, 403 or 404. Any other, and another text with a status of 200, is not a hub's.
/** @param {() => Promise<string>} ask @param {(text: string) => boolean} isRight */
async function answered(ask, isRight) {
  try {
    const text = await ask();
    if (!isRight(text)) throw new Error(phrases.session.begins(JSON.stringify(text.slice(0, 40))));
    return 200;
  } catch (why) {
    if (why instanceof Refused && ["denied", "unknown"].includes(why.body)) return why.status;
    throw why;
  }
}
