// @ts-check
// Reads what a buyer wrote beside numbers and quantities: descriptions, article numbers, packs, prices, addresses, dates, contracts and
// free texts (EANCOM 2002, ORDERS D.01B). The hub passes all of it on unread, so none of it decides whether an order is valid.

import { phrases } from "../language.js";
import { component, segmentText } from "./segments.js";
import { isDate } from "./dates.js";
import { headerOf, lineGroups } from "./message.js";

/** @typedef {import("./segments.js").Segment} Segment */
/** @typedef {{ kind: string, gln: string, address: string[] }} Party */
/** @typedef {{ kind: string, amount: string, type: string, basis: string, unit: string }} Price */
/** @typedef {{ kind: string, quantity: string, type: string }} Pack `kind` is `PAC`, or that of a QTY */
/** @typedef {{ kind: string, text: string, format: string }} Moment */
/**
 * @typedef {{ descriptions: string[], itemKinds: string[], supplierNumbers: string[], buyerNumbers: string[], packs: Pack[],
 *   prices: Price[], currency: string, parties: Party[], dates: Moment[], contracts: string[], texts: string[], raw: string[] }} Details
 * `raw` has each segment of which the page did not read everything
 */

const DATES = ["137", "2", "10", "61", "63", "64", "76"];
const PARTIES = ["BY", "SU", "DP", "UC", "IV"];
const GS1 = "9";

/** A segment whose components are taken one by one. What nobody takes, the page does not show in words. */
class Reading {
  /** @param {Segment} segment */
  constructor(segment) {
    this.segment = segment;
    const places = segment.elements.flatMap((it, element) => it.map((text, place) => (text ? `${element + 1}.${place + 1}` : "")));
    this.left = new Set(places.filter(Boolean));
  }

  /** @param {number} element @param {number} [place] */
  peek(element, place = 1) {
    return component(this.segment, element, place);
  }

  /** @param {number} element @param {number} [place] */
  take(element, place = 1) {
    this.left.delete(`${element}.${place}`);
    return this.peek(element, place);
  }

  /** Takes a component if it is one of these.
   * @param {string[]} known @param {number} element @param {number} [place] */
  takeIf(known, element, place = 1) {
    return known.includes(this.peek(element, place)) ? this.take(element, place) : "";
  }

  /** The components of an element from one place to another, without empty ones.
   * @param {number} element @param {number} first @param {number} last */
  takeAll(element, first, last) {
    const texts = Array.from({ length: last - first + 1 }, (_, place) => this.take(element, first + place));
    return texts.filter(Boolean);
  }
}

/** A number as it is written, with a point for the decimal mark and no zeros that only fill it up; "" if it is not a number.
 * @param {string} text */
const numberOf = (text) => (/^\d+([.,]\d+)?$/.test(text) ? text.replace(",", ".") : "");
/** @param {string} text */
const countOf = (text) => numberOf(text).replace(/\.0+$/, "");

/** @param {Reading} it @param {Details} details */
function readDescription(it, details) {
  const words = it.peek(3, 4) + it.peek(3, 5);
  if (!words) return readItemKind(it, details);
  it.take(1);
  const characteristic = phrases.characteristics[it.takeIf(Object.keys(phrases.characteristics), 2)];
  const text = it.takeAll(3, 4, 5).join(" ");
  const language = it.take(3, 6);
  details.descriptions.push((characteristic ? `${characteristic}: ` : "") + text + (language ? ` (${language})` : ""));
  return true;
}

/** @param {Reading} it @param {Details} details */
function readItemKind(it, details) {
  const isKnown = it.peek(1) === "C" && Object.hasOwn(phrases.itemKinds, it.peek(3)) && it.peek(3, 3) === GS1;
  if (!isKnown) return false;
  it.take(1);
  it.take(3, 3);
  details.itemKinds.push(phrases.itemKinds[it.take(3)]);
  return true;
}

/** @param {Reading} it @param {Details} details */
function readNumbers(it, details) {
  if (!it.takeIf(["1", "5"], 1)) return false;
  for (let element = 2; element <= 6; element += 1) {
    const kind = it.takeIf(["SA", "IN"], element, 2);
    if (!kind) continue;
    (kind === "SA" ? details.supplierNumbers : details.buyerNumbers).push(it.take(element));
    it.take(element, 4);
  }
  return true;
}

/** @param {Reading} it @param {Details} details */
function readQuantity(it, details) {
  const quantity = countOf(it.peek(1, 2));
  if (!["21", "52", "59"].includes(it.peek(1)) || !quantity) return false;
  const kind = it.take(1);
  it.take(1, 2);
  it.takeIf(["PCE"], 1, 3);
  // the quantity that is ordered is shown as such
  if (kind !== "21") details.packs.push({ kind, quantity, type: "" });
  return true;
}

/** @param {Reading} it @param {Details} details */
function readPackages(it, details) {
  const quantity = countOf(it.take(1));
  if (!quantity) return false;
  details.packs.push({ kind: "PAC", quantity, type: it.take(3) });
  it.takeIf([GS1], 3, 3);
  return true;
}

/** @param {Reading} it @param {Details} details */
function readPrice(it, details) {
  const amount = numberOf(it.peek(1, 2));
  const basis = countOf(it.peek(1, 5));
  if (!["AAA", "AAB"].includes(it.peek(1)) || !amount || (it.peek(1, 5) && !basis)) return false;
  const kind = it.take(1);
  it.take(1, 2);
  it.take(1, 5);
  details.prices.push({ kind, amount, type: it.takeIf(["CA", "CT"], 1, 3), basis, unit: it.take(1, 6) });
  return true;
}

/** @param {Reading} it @param {Details} details */
function readCurrency(it, details) {
  if (it.peek(1) !== "2" || !/^[A-Z]{3}$/.test(it.peek(1, 2)) || details.currency) return false;
  it.take(1);
  details.currency = it.take(1, 2);
  it.takeIf(["9", "10"], 1, 3);
  return true;
}

/** @param {Reading} it @param {Details} details */
function readParty(it, details) {
  const kind = it.takeIf(PARTIES, 1);
  if (!kind) return false;
  const gln = it.take(2);
  it.takeIf([GS1], 2, 3);
  const names = [...it.takeAll(3, 1, 5), ...it.takeAll(4, 1, 5), ...it.takeAll(5, 1, 4)];
  const place = [it.take(8), it.take(6)].filter(Boolean).join(" ");
  details.parties.push({ kind, gln, address: [...names, place, it.take(7, 4), it.take(9)].filter(Boolean) });
  return true;
}

/** @param {Reading} it @param {Details} details */
function readDate(it, details) {
  const [kind, text, format] = [1, 2, 3].map((place) => it.peek(1, place));
  if (!DATES.includes(kind) || !isDate(text, format)) return false;
  it.takeAll(1, 1, 3);
  details.dates.push({ kind, text, format });
  return true;
}

/** @param {Reading} it @param {Details} details */
function readContract(it, details) {
  if (it.peek(1) !== "CT" || !it.peek(1, 2)) return false;
  const [, number, line] = [1, 2, 3].map((place) => it.take(1, place));
  details.contracts.push(line ? phrases.order.contractLine(number, line) : number);
  return true;
}

/** @param {Reading} it @param {Details} details */
function readText(it, details) {
  const text = it.takeAll(4, 1, 5).join(" ");
  if (!text) return false;
  const subject = phrases.subjects[it.takeIf(Object.keys(phrases.subjects), 1)] ?? "";
  it.take(2);
  it.take(5);
  details.texts.push(subject + text);
  return true;
}

/** Each puts what it reads into the details, and returns whether the segment is of a kind that it reads.
 * @type {Record<string, (it: Reading, details: Details) => boolean>} */
const READERS = {
  IMD: readDescription,
  PIA: readNumbers,
  QTY: readQuantity,
  PAC: readPackages,
  PRI: readPrice,
  CUX: readCurrency,
  NAD: readParty,
  DTM: readDate,
  RFF: readContract,
  FTX: readText,
};
// what the page shows elsewhere, or what only counts and closes
const ELSEWHERE = ["BGM", "LIN", "UNS", "CNT", "UNT"];

/** @param {Segment[]} segments @returns {Details} */
function detailsOf(segments) {
  /** @type {Details} */
  const details = {
    descriptions: [],
    itemKinds: [],
    supplierNumbers: [],
    buyerNumbers: [],
    packs: [],
    prices: [],
    currency: "",
    parties: [],
    dates: [],
    contracts: [],
    texts: [],
    raw: [],
  };
  let isSplit = false;
  for (const segment of segments) {
    if (ELSEWHERE.includes(segment.tag)) continue;
    // dates and places of parts of the quantity make sense only one after another, as they are written
    isSplit ||= segment.tag === "QTY" && component(segment, 1) === "11";
    const reading = new Reading(segment);
    const isRead = !isSplit && (READERS[segment.tag]?.(reading, details) ?? false);
    if (!isRead || reading.left.size) details.raw.push(segmentText(segment.tag, ...segment.elements));
  }
  return details;
}

/** What an order says beside its numbers and quantities: in its header and summary, and in each line, in the order of the lines.
 * @param {import("./envelope.js").Message} message */
export function readDetails({ segments }) {
  const summary = segments.slice(segments.findLastIndex((it) => it.tag === "UNS"));
  return { header: detailsOf([...headerOf(segments), ...summary]), lines: lineGroups(segments).map(detailsOf) };
}
