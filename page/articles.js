// @ts-check
// Knows articles by name: what the orders that this tab has read say of them. It asks the hub for nothing.

import { readDetails } from "./edi/order_details.js";
import { phrases } from "./language.js";

/** @typedef {{ description: string, number: string }} Article `number` is the supplier's own; each may be empty */
/** @typedef {{ gtin: string, order?: string, line?: number | null }} Place */
/** @typedef {import("./session.js").Entry} Entry */

/** @type {WeakMap<Entry, { details: ReturnType<typeof readDetails>, language: unknown }>} */
const READ = new WeakMap();

/** What an order says beside its numbers and quantities; null if the entry is not an order.
 * @param {Entry} entry */
export function detailsOfEntry(entry) {
  const message = entry.order && entry.interchange?.messages[0];
  if (!message) return null;
  const known = READ.get(entry);
  // some of it is in the language of the page
  if (known?.language === phrases) return known.details;
  const details = readDetails(message);
  READ.set(entry, { details, language: phrases });
  return details;
}

/** @param {import("./edi/order_details.js").Details} details @returns {Article} */
const articleOf = ({ descriptions, supplierNumbers }) => ({ description: descriptions.join(", "), number: supplierNumbers.join(", ") });

/** @param {string} order @param {number} line */
const lineName = (order, line) => `${order}\n${line}`;

export class Articles {
  constructor() {
    /** @type {Map<string, Article>} */
    this.byGtin = new Map();
    /** @type {Map<string, Article>} */
    this.byLine = new Map();
  }

  /** Learns from an order; what an earlier one said of an article, and this one does not, still counts.
   * @param {Entry} entry */
  learn(entry) {
    detailsOfEntry(entry)?.lines.forEach((details, place) => {
      const line = entry.order?.lines[place];
      const { description, number } = articleOf(details);
      if (!line || !(description || number)) return;
      const before = this.byGtin.get(line.gtin);
      const article = { description: description || before?.description || "", number: number || before?.number || "" };
      this.byGtin.set(line.gtin, article);
      this.byLine.set(lineName(entry.order?.document ?? "", line.line), article);
    });
  }

  /** What the line's own order says of its article, or else the latest order that names the article.
   * @param {Place} place */
  of({ gtin, order, line }) {
    return (order && line && this.byLine.get(lineName(order, line))) || this.byGtin.get(gtin) || null;
  }

  /** The words by which a list of articles is searched.
   * @param {Place} place */
  words(place) {
    const { description = "", number = "" } = this.of(place) ?? {};
    return `${description} ${number}`;
  }
}

/** The articles that the orders of this session name.
 * @param {import("./session.js").Session} session */
export function articlesOf(session) {
  const articles = new Articles();
  const entries = [...session.entries.values()].sort((a, b) => a.number - b.number);
  entries.forEach((it) => articles.learn(it));
  return articles;
}
