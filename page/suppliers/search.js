// @ts-check
// Searches the fetched reports of all suppliers for an order, an article or a pallet.

import { ssccOf } from "../edi/sscc.js";
import { readStatus } from "../hub/replies.js";

/** @typedef {import("../hub/replies.js").StatusLine} StatusLine */
/** @typedef {import("../hub/replies.js").StatusPallet} StatusPallet */
/** @typedef {{ lines: (StatusLine & { gln: string })[], pallets: (StatusPallet & { gln: string })[], isCut: boolean }} Found */

/** The most rows of each kind that are shown. */
export const MOST_FOUND = 500;

/** What has this text in its order number, its GTIN or its SSCC; capitals and small letters count as the same.
 * @param {Map<string, { text: string }>} reports by GLN @param {string} text
 * @returns {Found} */
export function search(reports, text) {
  const wanted = isScanned(text) ? ssccOf(text) : text.trim().toLowerCase();
  /** @type {Found} */
  const found = { lines: [], pallets: [], isCut: false };
  if (!wanted) return found;
  const has = (/** @type {string[]} */ ...words) => words.some((it) => it.toLowerCase().includes(wanted));
  for (const [gln, report] of reports) {
    // only what has the text somewhere is read as a report, and no more once there is too much of a kind
    const isFull = { L: found.lines.length > MOST_FOUND, P: found.pallets.length > MOST_FOUND };
    if (isFull.L && isFull.P) break;
    const some = report.text.split("\n").filter((row) => row.toLowerCase().includes(wanted) && !isFull[/** @type {"L" | "P"} */ (row[0])]);
    const { lines, pallets } = readStatus(`${some.join("\n")}\nend\n`);
    found.lines.push(...lines.filter((it) => has(it.order, it.gtin)).map((it) => ({ ...it, gln })));
    found.pallets.push(...pallets.filter((it) => has(it.sscc, it.gtin)).map((it) => ({ ...it, gln })));
  }
  const isCut = found.lines.length > MOST_FOUND || found.pallets.length > MOST_FOUND;
  return { lines: found.lines.slice(0, MOST_FOUND), pallets: found.pallets.slice(0, MOST_FOUND), isCut };
}

/** Whether it is an SSCC after its application identifier.
 * @param {string} text */
const isScanned = (text) => /^(\]C1)?(00|\(00\))\d{18}$/.test(text.replace(/\s/g, ""));
