// @ts-check
// Reads which document and which supplier a message is about, whatever else may be wrong in it.

import { readAnySpelling } from "./any_spelling.js";
import { all, headerOf } from "./message.js";
import { component } from "./segments.js";

/** @typedef {{ document: string, supplier: string }} Names */

/** The document number, which is an order's own in ORDERS, and the supplier's GLN; each is "" if it is missing.
 * @param {import("./envelope.js").Message} message @returns {Names} */
export function namesOf({ segments }) {
  const [beginning] = all(segments, "BGM");
  const [supplier] = all(headerOf(segments), "NAD", "SU");
  return { document: beginning ? component(beginning, 2) : "", supplier: supplier ? component(supplier, 2) : "" };
}

/** The same of each message of a file, by its reference; of none if the page cannot read the file.
 * @param {string} text
 * @returns {Map<string, Names>} */
export const namesInFile = (text) => new Map(readAnySpelling(text)?.messages.map((it) => [it.reference, namesOf(it)]));
