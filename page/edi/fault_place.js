// @ts-check
// Finds the place of a fault in the text of an interchange, with a little of what is before and after it.

/** @typedef {{ line: number, before: string, it: string, after: string }} Place `it` is the segment or the character that shows the fault,
 *   "" at the end of the text; lines count from 1 */

const USUAL = "UNA:+.? '";
const CHARACTERS_BEFORE = 60;
const CHARACTERS_AFTER = 30;

/** The beginnings of the segments, and the end of the last one.
 * @param {string} text */
function borders(text) {
  const from = text.search(/[^\r\n]|$/);
  const hasService = text.startsWith("UNA", from);
  const [, , , , , , release, , terminator] = hasService ? text.slice(from, from + USUAL.length) : USUAL;
  const found = [];
  for (let at = hasService ? from + USUAL.length : from; at < text.length; at += 1) {
    while (/[\r\n]/.test(text[at] ?? "")) at += 1;
    if (at < text.length) found.push(at);
    for (; at < text.length && text[at] !== terminator; at += 1) if (text[at] === release && release !== " ") at += 1;
  }
  return [...found, text.length];
}

/** @param {string} text @param {number} at */
const lineOf = (text, at) => text.slice(0, at).split("\n").length;

/** The place of segment n, counted from 1, with each segment on a line of its own; null if the text has no such segment.
 * @param {string} text @param {number} segment
 * @returns {Place | null} */
export function placeOfSegment(text, segment) {
  const places = borders(text);
  const at = segment - 1;
  if (at < 0 || at + 1 >= places.length) return null;
  const written = (/** @type {number} */ it) => text.slice(places[it], places[it + 1]).replace(/[\r\n]+$/, "");
  const before = [at - 2, at - 1].filter((it) => it >= 0).map((it) => `${written(it)}\n`);
  const after = at + 2 < places.length ? `\n${written(at + 1)}` : "";
  return { line: lineOf(text, places[at]), before: before.join(""), it: written(at), after };
}

/** The place of a byte, counted from 0.
 * @param {string} text @param {number} offset @returns {Place} */
export function placeOfByte(text, offset) {
  const before = text.slice(Math.max(0, offset - CHARACTERS_BEFORE), offset);
  const after = text.slice(offset + 1, offset + 1 + CHARACTERS_AFTER);
  return { line: lineOf(text, offset), before, it: text[offset] ?? "", after };
}
