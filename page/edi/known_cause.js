// @ts-check
// Finds out what exactly is wrong with the segment that shows a fault, if the segment alone tells.

import { isDate } from "./dates.js";
import { isGln, isGtin, isSscc } from "./identifiers.js";
import { USUAL_SERVICE, component, readSegments } from "./segments.js";

/** @typedef {"notWhole" | "nothing" | "notPieces" | "notAGtin" | "notAGln" | "notAnSscc" | "notADate"} Cause */
/** @typedef {{ cause: Cause, text: string }} Known `text` is what is wrong, as it is written */

const FORMATS = ["102", "203"];

/** @param {import("./segments.js").Segment} segment */
const isDateIn = (segment) => (/** @type {string} */ text) => isDate(text, component(segment, 1, 3));

/** @type {Record<string, (segment: import("./segments.js").Segment) => Known | null>} */
const WRONG = {
  "M04 DTM": (it) => (FORMATS.includes(component(it, 1, 3)) ? wrong("notADate", component(it, 1, 2), isDateIn(it)) : null),
  "M05 NAD": (it) => wrong("notAGln", component(it, 2), isGln),
  "M07 LIN": (it) => wrong("notAGtin", component(it, 3), isGtin),
  "M08 QTY": (it) =>
    wrong("notWhole", component(it, 1, 2), (text) => /^\d+([.,]0+)?$/.test(text)) ??
    wrong("notPieces", component(it, 1, 3), (text) => text === "PCE") ??
    wrong("nothing", component(it, 1, 2), (text) => Number.parseInt(text, 10) > 0),
  "M10 GIN": (it) => wrong("notAnSscc", component(it, 2), isSscc),
};

/** @param {Cause} cause @param {string} text @param {(text: string) => boolean} isRight @returns {Known | null} */
const wrong = (cause, text, isRight) => (text === "" || isRight(text) ? null : { cause, text });

/** What is wrong, or null if the segment alone does not tell.
 * @param {string} code @param {string} text of the segment */
export function knownCause(code, text) {
  const segment = readSegments(USUAL_SERVICE + text)?.[0];
  return (segment && WRONG[`${code} ${segment.tag}`]?.(segment)) ?? null;
}
