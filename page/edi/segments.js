// @ts-check
// Segments in the hub's canonical spelling: `:` parts components, `+` stands before elements, `?` releases the byte after it, `'` ends a
// segment. A text is a string with one character for each byte.

/** @typedef {{ tag: string, elements: string[][] }} Segment */

const SERVICE = /^UNA:\+[.,]\? '/;
const TAG = /^[A-Z][A-Z0-9]{2}$/;
const NO_DATA = /[^\x20-\x7e\xa0-\xff]/;
const SPECIAL = /[?'+:]/;
const LONGEST_TEXT = 1_048_576;
const LONGEST_SEGMENT = 8_192;

/** The service string that the page writes. */
export const USUAL_SERVICE = "UNA:+.? '";

/** Whether each character may stand in an interchange.
 * @param {string} text */
export function canBeSent(text) {
  return !NO_DATA.test(text);
}

/** Data with a release character before each character that would else be special.
 * @param {string} data */
export function released(data) {
  return SPECIAL.test(data) ? data.replace(/[?'+:]/g, "?$&") : data;
}

/** The list without the empty texts at its end.
 * @param {string[]} texts */
function withoutEmptyEnd(texts) {
  const length = texts.findLastIndex((it) => it !== "") + 1;
  return texts.slice(0, length);
}

/** A segment of these elements; empty components and elements at the end are left out, as the hub does.
 * @param {string} tag
 * @param {(string | string[])[]} elements */
export function segmentText(tag, ...elements) {
  const written = elements.map((it) => (typeof it === "string" ? released(it) : withoutEmptyEnd(it).map(released).join(":")));
  return [tag, ...withoutEmptyEnd(written)].join("+") + "'";
}

/** @param {Segment[]} segments */
function textOf(segments) {
  return segments.map((it) => segmentText(it.tag, ...it.elements)).join("");
}

/** The segments of a text in canonical spelling behind a service string, or null where it is none.
 * @param {string} text
 * @returns {Segment[] | null} */
export function readSegments(text) {
  if (!SERVICE.test(text) || text.length > LONGEST_TEXT) return null;
  const body = text.slice(USUAL_SERVICE.length);
  const segments = [];
  for (let at = 0; at < body.length; ) {
    const end = endOfSegment(body, at);
    if (end < 0 || end - at > LONGEST_SEGMENT) return null;
    segments.push(segmentOf(body.slice(at, end - 1)));
    at = end;
  }
  const right = segments.every((it) => TAG.test(it.tag) && it.elements.flat().every(canBeSent));
  return right && textOf(segments) === body ? segments : null;
}

// The place behind the terminator of the segment that begins here, or -1.
/** @param {string} body @param {number} from */
function endOfSegment(body, from) {
  for (let at = from; at < body.length; at += 1) {
    if (body[at] === "?") at += 1;
    else if (body[at] === "'") return at + 1;
  }
  return -1;
}

/** @param {string} text @returns {Segment} */
function segmentOf(text) {
  const [tag, ...elements] = parted(text, "+");
  return { tag, elements: elements.map((it) => parted(it, ":").map((component) => component.replace(/\?(.)/gs, "$1"))) };
}

// The parts between separators that no release character stands before; release characters stay.
/** @param {string} text @param {string} separator */
function parted(text, separator) {
  const parts = [""];
  for (let at = 0; at < text.length; at += 1) {
    if (text[at] === separator) parts.push("");
    else if (text[at] === "?") parts[parts.length - 1] += text.slice(at, (at += 1) + 1);
    else parts[parts.length - 1] += text[at];
  }
  return parts;
}

/** A component, counted from 1; an absent one is empty.
 * @param {Segment} segment
 * @param {number} element
 * @param {number} [component] */
export function component(segment, element, component = 1) {
  return segment.elements[element - 1]?.[component - 1] ?? "";
}
