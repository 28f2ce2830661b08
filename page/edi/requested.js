// @ts-check
// Reads from an order on which day delivery is wanted.

import { isDate } from "./dates.js";
import { all, headerOf } from "./message.js";
import { component } from "./segments.js";

/** The day as CCYYMMDD by the order's DTM+2, or "" if it names none that the page knows.
 * @param {import("./envelope.js").Message} message */
export function requestedDay({ segments }) {
  const days = all(headerOf(segments), "DTM", "2").map((it) => dayOf(component(it, 1, 2), component(it, 1, 3)));
  return days.find(Boolean) ?? "";
}

/** The day of a date or moment as CCYYMMDD, or "".
 * @param {string} text @param {string} format */
export const dayOf = (text, format) => (isDate(text, format) ? text.slice(0, 8) : "");
