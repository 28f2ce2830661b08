// @ts-check
// What the four messages have in common: their parts, the fields of the header, quantities, references and counts. What is read is what the
// hub reads, so that the page takes a message exactly where the hub does.

import { component } from "./segments.js";
import { isCount, isText } from "./envelope.js";
import { isDate } from "./dates.js";
import { gtin14, isGln, isGtin } from "./identifiers.js";

/** @typedef {import("./segments.js").Segment} Segment */
/** @typedef {import("./envelope.js").Message} Message */
/** @typedef {{ document: string, function: string, date: string, format: string, buyer: string, supplier: string }} Header */

const GREATEST = 999_999_999;

/** @param {Segment[]} segments @param {string} tag @param {string} [kind] */
export const all = (segments, tag, kind) => segments.filter((it) => it.tag === tag && (kind === undefined || component(it, 1) === kind));

/** The segments from `from` on, up to the first with one of these tags, or to the end.
 * @param {Segment[]} segments @param {number} from @param {string[]} tags */
function upTo(segments, from, tags) {
  const end = segments.findIndex((it, place) => place > from && tags.includes(it.tag));
  return segments.slice(from, end < 0 ? segments.length : end);
}

/** @param {Segment[]} segments */
export const headerOf = (segments) => upTo(segments, 0, ["LIN", "CPS", "UNS", "UNT"]).slice(1);

/** The parts that begin with this tag, each up to one of those that end it.
 * @param {Segment[]} segments @param {string} tag @param {string[]} ends */
const partsOf = (segments, tag, ends) => segments.flatMap((it, place) => (it.tag === tag ? [upTo(segments, place, ends)] : []));

/** @param {Segment[]} segments */
export const lineGroups = (segments) => partsOf(segments, "LIN", ["LIN", "CPS", "UNS", "UNT"]);
/** @param {Segment[]} segments */
const unitParts = (segments) => partsOf(segments, "CPS", ["CPS", "UNT"]);

/** A quantity, or null where it is none.
 * @param {Segment} segment */
export function quantityOf(segment) {
  const [, text, unit] = [1, 2, 3].map((it) => component(segment, 1, it));
  const right = text.length <= 35 && /^\d+([.,]0+)?$/.test(text) && ["", "PCE"].includes(unit);
  const quantity = Number(/^\d*/.exec(text)?.[0]);
  return right && quantity <= GREATEST ? quantity : null;
}

/** The one quantity of this kind in a line group, or null.
 * @param {Segment[]} group @param {string} kind */
export function oneQuantity(group, kind) {
  const found = all(group, "QTY", kind);
  return found.length === 1 ? quantityOf(found[0]) : null;
}

/** @param {string} text */
const isLineNumber = (text) => /^\d{1,6}$/.test(text) && Number(text) > 0;

/** The article of a line group, and its line number and action as they stand there; null where it is no line.
 * @param {Segment[]} group */
export function lineOf([line]) {
  const subLine = line.elements[3]?.some((it) => it !== "");
  const right = isLineNumber(component(line, 1)) && isGtin(component(line, 3)) && component(line, 3, 2) === "SRV" && !subLine;
  return right ? { number: Number(component(line, 1)), action: component(line, 2), gtin: gtin14(component(line, 3)) } : null;
}

/** The reference to an order in these segments: `undefined` where there is none, null where it is wrong or not the only one.
 * @param {Segment[]} segments @param {boolean} withLine */
export function orderNamed(segments, withLine) {
  const found = all(segments, "RFF", "ON");
  if (!found.length) return undefined;
  const [, order, line] = [1, 2, 3].map((it) => component(found[0], 1, it));
  const right = found.length === 1 && isText(order, 1, 35) && (!withLine || line === "" || isLineNumber(line));
  return right ? { order, line: withLine && line ? Number(line) : null } : null;
}

/** The GLN of the one party of this kind: `undefined` where there is none, null where it is wrong or not the only one.
 * @param {Segment[]} header @param {string} kind */
function party(header, kind) {
  const found = all(header, "NAD", kind);
  if (!found.length) return undefined;
  const gln = component(found[0], 2);
  return found.length === 1 && isGln(gln) && component(found[0], 2, 3) === "9" ? gln : null;
}

/** What the header says, or null where something in it is wrong.
 * @param {Message} message
 * @param {{ type: string, code: string, functions: string[], needsBuyer: boolean }} kind
 * @returns {Header | null} */
export function readHeader({ type, version, segments }, kind) {
  const header = headerOf(segments);
  const beginning = segments[1];
  if (type !== kind.type || version !== "D:01B:UN" || beginning.tag !== "BGM" || all(segments, "BGM").length !== 1) return null;
  const dates = all(header, "DTM", "137");
  const buyer = party(header, "BY");
  const supplier = party(header, "SU");
  const [document, purpose] = [component(beginning, 2), component(beginning, 3)];
  const right = component(beginning, 1) === kind.code && isText(document, 1, 35) && kind.functions.includes(purpose);
  const dated = dates.length === 1 && isDate(component(dates[0], 1, 2), component(dates[0], 1, 3));
  if (!right || !dated || !supplier || buyer === null || (kind.needsBuyer && !buyer) || !isCounted(segments)) return null;
  const [, date, format] = [1, 2, 3].map((it) => component(dates[0], 1, it));
  return { document, function: purpose, date, format, buyer: buyer ?? "", supplier };
}

/** Whether the control, where there is one, counts the lines.
 * @param {Segment[]} segments */
function isCounted(segments) {
  const controls = all(segments, "CNT", "2");
  return controls.length === 0 || (controls.length === 1 && isCount(component(controls[0], 1, 2), all(segments, "LIN").length));
}

/** Whether the summary begins once, and no line stands behind it.
 * @param {Segment[]} segments */
export function hasSummary(segments) {
  const at = segments.findIndex((it) => it.tag === "UNS");
  const alone = all(segments, "UNS").length === 1 && component(segments[at], 1) === "S";
  return alone && all(segments.slice(at), "LIN").length === 0;
}

/** The logistic units that have lines, each with its SSCC and its line groups; null where one is wrong.
 * @param {Segment[]} segments
 * @param {(sscc: string) => boolean} isSscc */
export function readUnits(segments, isSscc) {
  const first = segments.findIndex((it) => it.tag === "CPS" || it.tag === "LIN");
  if (first >= 0 && segments[first].tag === "LIN") return null;
  const units = unitParts(segments).filter((it) => all(it, "LIN").length).map(unitOf);
  const right = units.every((it) => it.identifier && it.marks.length === 1 && isAlone(it.marks[0]) && isSscc(it.sscc));
  return right && new Set(units.map((it) => it.sscc)).size === units.length ? units : null;
}

/** @param {Segment[]} unit */
function unitOf(unit) {
  const head = upTo(unit, 0, ["LIN"]);
  const marks = all(head, "GIN", "BJ");
  return { identifier: component(unit[0], 1), marks, sscc: marks.length ? component(marks[0], 2) : "", groups: lineGroups(unit) };
}

// Behind `BJ` stands one SSCC and nothing else.
/** @param {Segment} mark */
const isAlone = (mark) => mark.elements.slice(1).flat().filter((it) => it !== "").length === 1;
