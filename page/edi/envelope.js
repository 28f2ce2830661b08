// @ts-check
// The envelope of an interchange: UNB, messages from UNH to UNT, UNZ.

import { USUAL_SERVICE, component, readSegments, segmentText } from "./segments.js";
import { day, minute } from "./dates.js";

/** @typedef {import("./segments.js").Segment} Segment */
/** @typedef {{ reference: string, type: string, version: string, segments: Segment[] }} Message */
/** @typedef {{ decimal: string, reference: string, sender: string, recipient: string, date: string, time: string,
 *   messages: Message[] }} Interchange */

const PRINTABLE = /^[\x20-\x7e]*$/;
const MOST_MESSAGES = 999;
const FRAME = ["UNH", "UNT", "UNB", "UNZ", "UNG", "UNE"];

/** @param {string} text @param {number} least @param {number} most */
export const isText = (text, least, most) => text.length >= least && text.length <= most && PRINTABLE.test(text);
/** @param {string} text */
const isReference = (text) => isText(text, 1, 14);
/** @param {string} text @param {number} number */
export const isCount = (text, number) => /^\d{1,6}$/.test(text) && Number(text) === number;

/** The interchange that a text in canonical spelling is, or null where it is none.
 * @param {string} text
 * @returns {Interchange | null} */
export function readInterchange(text) {
  const segments = readSegments(text);
  if (!segments || segments.length < 2) return null;
  const head = segments[0];
  const end = segments[segments.length - 1];
  const messages = blocks(segments.slice(1, -1));
  if (head.tag !== "UNB" || end.tag !== "UNZ" || !messages || !isHead(head)) return null;
  const read = messages.map(messageOf);
  const references = new Set(read.map((it) => it?.reference));
  const right = isCount(component(end, 1), messages.length) && component(end, 2) === component(head, 5);
  const within = messages.length <= MOST_MESSAGES && references.size === messages.length && inItsCharacters(head, segments);
  if (!right || !within || read.includes(null)) return null;
  return {
    decimal: text[5],
    reference: component(head, 5),
    sender: component(head, 2),
    recipient: component(head, 3),
    date: component(head, 4),
    time: component(head, 4, 2),
    messages: /** @type {Message[]} */ (read),
  };
}

/** @param {Segment} head */
function isHead(head) {
  const isPartner = (/** @type {number} */ element) => {
    const name = component(head, element);
    return name.length >= 1 && name.length <= 35 && component(head, element, 2) === "14";
  };
  return (
    ["UNOA", "UNOB", "UNOC"].includes(component(head, 1)) &&
    component(head, 1, 2) === "3" &&
    isPartner(2) &&
    isPartner(3) &&
    /^\d{6}$/.test(component(head, 4)) &&
    /^\d{4}$/.test(component(head, 4, 2)) &&
    isReference(component(head, 5)) &&
    component(head, 11) === ""
  );
}

// Bytes past ASCII are for UNOC alone.
/** @param {Segment} head @param {Segment[]} segments */
function inItsCharacters(head, segments) {
  return component(head, 1) === "UNOC" || segments.every((it) => it.elements.flat().every((data) => PRINTABLE.test(data)));
}

/** @param {Segment[]} segments @returns {Segment[][] | null} */
function blocks(segments) {
  const found = [];
  for (let at = 0; at < segments.length; ) {
    const length = segments.slice(at).findIndex((it, place) => place > 0 && FRAME.includes(it.tag)) + 1;
    if (segments[at].tag !== "UNH" || !length || segments[at + length - 1].tag !== "UNT") return null;
    found.push(segments.slice(at, at + length));
    at += length;
  }
  return found;
}

/** @param {Segment[]} segments @returns {Message | null} */
function messageOf(segments) {
  const [head] = segments;
  const end = segments[segments.length - 1];
  const [type, version, release, agency, association] = [1, 2, 3, 4, 5].map((it) => component(head, 2, it));
  const right =
    isReference(component(head, 1)) &&
    isText(type, 1, 6) &&
    [version, release, agency].every((it) => isText(it, 1, 3)) &&
    isText(association, 0, 6) &&
    isCount(component(end, 1), segments.length) &&
    component(end, 2) === component(head, 1);
  return right ? { reference: component(head, 1), type, version: `${version}:${release}:${agency}`, segments } : null;
}

/** A message of these segments, from UNH to UNT.
 * @param {string} type
 * @param {string} association
 * @param {string[]} segments */
export function messageText(type, association, segments) {
  const head = segmentText("UNH", "1", [type, "D", "01B", "UN", association]);
  return [head, ...segments, segmentText("UNT", String(segments.length + 2), "1")].join("");
}

/** The interchange of one message.
 * @param {{ sender: string, recipient: string, reference: string, moment: Date }} words
 * @param {string} message */
export function interchangeText({ sender, recipient, reference, moment }, message) {
  const prepared = [day(moment).slice(2), minute(moment)];
  const head = segmentText("UNB", ["UNOC", "3"], [sender, "14"], [recipient, "14"], prepared, reference);
  return USUAL_SERVICE + head + message + segmentText("UNZ", "1", reference);
}
