// @ts-check
// Shows a fault that `edihub show` found in a file: its code in words, and the place in the file that shows it.

import { placeOfByte, placeOfSegment } from "../edi/fault_place.js";
import { knownCause } from "../edi/known_cause.js";
import { phrases } from "../language.js";
import { codeInWords } from "./code.js";
import { element } from "./dom.js";

/** @typedef {import("../edi/shown.js").Fault} Fault */
/** @typedef {import("../edi/fault_place.js").Place} Place */

/** @param {Fault} fault @param {string} text of the file @returns {HTMLElement[]} */
export function faultInWords(fault, text) {
  const words = element("p", {}, codeInWords(fault.code, causeInWords(fault, text)));
  return [words, ...(fault.segment === null ? [] : placeInWords(fault, text))];
}

/** What exactly is wrong, or "" if the page does not know.
 * @param {Fault} fault @param {string} text */
function causeInWords({ code, segment, offset }, text) {
  const place = segment !== null && offset === null ? placeOfSegment(text, segment) : null;
  const known = place && knownCause(code, place.it);
  if (!known) return "";
  const { nothing, ...said } = phrases.knownCause;
  const { notWhole, notAnSscc } = phrases.palletRows;
  const inWords = { ...said, notWhole, notAnSscc, notAGln: phrases.supplierFile.notAGln, nothing: () => nothing };
  return inWords[known.cause](known.text);
}

/** @param {Fault} fault @param {string} text */
function placeInWords({ segment, offset }, text) {
  const place = offset === null ? placeOfSegment(text, segment ?? 0) : placeOfByte(text, offset);
  const { inFile, inSegment, afterBytes } = phrases.faultInWords;
  const where = place ? inFile(place.line, segment ?? 0) : inSegment(segment ?? 0);
  const byte = offset === null ? "" : `, ${afterBytes(offset, characterInWords(text[offset] ?? ""))}`;
  const words = element("p", { class: "fault-where" }, `${where}${byte}.`);
  if (!place) return [words];
  const mark = element("mark", {}, visible(place.it).replace("\n", "\u240a") || `(${phrases.characters.end})`);
  const shown = [visible(place.before), mark, visible(place.after)];
  return [words, element("pre", { class: "raw", tabindex: "0", "aria-label": phrases.faultInWords.place }, ...shown)];
}

// the control characters that come in files by mistake
/** @type {Record<string, "tab" | "lineBreak" | "zeroByte" | "blank">} */
const NAMES = { "\t": "tab", "\n": "lineBreak", "\r": "lineBreak", "\0": "zeroByte", " ": "blank" };

/** @param {string} character "" at the end of the file */
function characterInWords(character) {
  const { end, printed, notPrinted, ...names } = phrases.characters;
  if (!character) return end;
  const code = `0x${character.charCodeAt(0).toString(16).toUpperCase().padStart(2, "0")}`;
  const isPrinted = /[\x21-\x7e\xa1-\xff]/.test(character);
  return `${names[NAMES[character]] ?? (isPrinted ? printed(character) : notPrinted)} (${code})`;
}

/** A text whose control characters can be seen.
 * @param {string} text */
const visible = (text) =>
  text.replace(/[\x00-\x09\x0b-\x1f\x7f-\x9f]/g, (it) => (it < " " ? String.fromCharCode(0x2400 + it.charCodeAt(0)) : "\ufffd"));
