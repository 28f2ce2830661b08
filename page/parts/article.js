// @ts-check
// Shows an article: its GTIN and, if an order names them, its description and the supplier's own number.

import { gtinAsPrinted } from "../edi/identifiers.js";
import { phrases } from "../language.js";
import { element, exact } from "./dom.js";

/** @typedef {import("../articles.js").Article} Article */

/** A column of articles. A file of the table has the GTIN alone.
 * @template Row
 * @param {(row: Row) => string} gtin
 * @param {(row: Row) => import("./dom.js").Child} cell */
export const articleColumn = (gtin, cell) => ({
  title: phrases.common.articleGtin,
  kind: "digits",
  cell,
  csv: (/** @type {Row} */ row) => gtinAsPrinted(gtin(row)),
});

/** The content of a cell.
 * @param {string} gtin @param {Article | null} article @param {(import("./dom.js").Child)[]} more lines */
export function articleCell(gtin, article, ...more) {
  const digits = gtinAsPrinted(gtin);
  const { description = "", number = "" } = article ?? {};
  const lines = [description && exact(description), number && phrases.article.yours(exact(number)), ...more].filter(Boolean);
  if (!lines.length) return digits;
  const line = (/** @type {import("./dom.js").Child | import("./dom.js").Child[]} */ it) => element("span", { class: "article-line" }, it);
  return element("span", { class: "article" }, element("span", { class: "digits" }, digits), ...lines.map(line));
}
