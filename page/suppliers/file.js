// @ts-check
// Reads a list of suppliers, GLN and name, from the rows of a spreadsheet.

import { isGln } from "../edi/identifiers.js";
import { ALL_PHRASES, phrases } from "../language.js";
import { placesOfTitles, readRows } from "../parts/csv.js";

/** @typedef {{ gln: string, name: string }} Supplier the name may be empty */

/** As many as a hub takes. */
export const MOST_SUPPLIERS = 1_000;

const TITLES = ALL_PHRASES.map(({ rows }) => [["gln"], rows.supplier]);
const ALONE = [0, 1];

/** The text of a file: UTF-8, or else Windows-1252, in which spreadsheets save CSV too.
 * @param {ArrayBuffer} buffer */
export function textOfFile(buffer) {
  try {
    return new TextDecoder("utf-8", { fatal: true }).decode(buffer);
  } catch {
    return new TextDecoder("windows-1252").decode(buffer);
  }
}

/** The suppliers of a list, and what is wrong with each row that is left out. Titles in the first row, `GLN` and `Name`, say which columns
 * count; without titles these are the first and the second.
 * @param {string} text
 * @returns {{ suppliers: Supplier[], wrong: string[] }} */
export function readSuppliers(text) {
  const rows = readRows(text);
  const titles = rows[0].map((it) => it.toLowerCase());
  const named = placesOfTitles(titles, TITLES);
  const hasTitles = named[0] >= 0;
  /** @type {Map<string, Supplier>} */
  const found = new Map();
  /** @type {string[]} */
  const wrong = [];
  rows.forEach((cells, at) => {
    if ((hasTitles && at === 0) || cells.every((it) => it === "")) return;
    const [gln, name] = (hasTitles ? named : ALONE).map((it) => cells[it] ?? "");
    const digits = gln.replace(/\s/g, "");
    const fault = faultOf(digits, gln, found);
    if (fault) wrong.push(phrases.common.row(at + 1, fault));
    else found.set(digits, { gln: digits, name });
  });
  return { suppliers: [...found.values()], wrong };
}

/** @param {string} digits @param {string} written @param {Map<string, Supplier>} found */
function faultOf(digits, written, found) {
  if (/^\d[\d.,]*E\+?\d+$/i.test(digits)) return phrases.supplierFile.shortened(written);
  if (!isGln(digits)) return written ? phrases.supplierFile.notAGln(written) : phrases.supplierFile.missing;
  if (found.has(digits)) return phrases.supplierFile.twice(digits);
  return found.size < MOST_SUPPLIERS ? "" : phrases.supplierFile.tooMany(MOST_SUPPLIERS);
}
