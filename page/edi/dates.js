// @ts-check
// Dates as interchanges spell them, and as a person reads them.

import { dateFormat } from "../words/figures.js";

/** @param {number} number @param {number} [places] */
const padded = (number, places = 2) => String(number).padStart(places, "0");

/** CCYYMMDD on the local clock of whoever writes: all dates, times and document numbers that the page makes come from that clock.
 * @param {Date} date */
export const day = (date) => padded(date.getFullYear(), 4) + padded(date.getMonth() + 1) + padded(date.getDate());

/** HHMM.
 * @param {Date} date */
export const minute = (date) => padded(date.getHours()) + padded(date.getMinutes());

/** SS.
 * @param {Date} date */
export const second = (date) => padded(date.getSeconds());

/** Whether CCYYMMDD (102) or CCYYMMDDHHMM (203) names a day of the Gregorian calendar, and a minute of it.
 * @param {string} text @param {string} format */
export function isDate(text, format) {
  const found = (format === "102" ? /^(\d{4})(\d\d)(\d\d)$/ : format === "203" ? /^(\d{4})(\d\d)(\d\d)(\d\d)(\d\d)$/ : null)?.exec(text);
  if (!found) return false;
  const [year, month, of, hour, min] = found.slice(1).map(Number);
  return month >= 1 && month <= 12 && of >= 1 && of <= daysOf(year, month) && !(hour > 23) && !(min > 59);
}

/** @param {number} year @param {number} month */
function daysOf(year, month) {
  const leap = (year % 4 === 0 && year % 100 !== 0) || year % 400 === 0;
  return month === 2 ? (leap ? 29 : 28) : [4, 6, 9, 11].includes(month) ? 30 : 31;
}

/** `3 June 2025`, or `3 June 2025, 09:15`, as the page's language has it, or the text as it stands if it is not a date.
 * @param {string} text @param {string} format */
export function dateInWords(text, format) {
  if (!isDate(text, format)) return text;
  const [year, month, of] = [text.slice(0, 4), text.slice(4, 6), text.slice(6, 8)].map(Number);
  const at = new Date(Date.UTC(2000, month - 1, of, Number(text.slice(8, 10)), Number(text.slice(10))));
  at.setUTCFullYear(year, month - 1, of);
  const date = dateFormat("dateStyle", "long").format(at);
  return format === "203" ? `${date}, ${dateFormat("timeStyle", "short").format(at)}` : date;
}

/** A moment as a number by which moments are sorted, to the minute; a day is its first minute, and what is no date comes before all.
 * @param {string} text @param {string} format */
export const moment = (text, format) => (isDate(text, format) ? Number(text.padEnd(12, "0")) : 0);

/** The same of a UNB's date and time.
 * @param {string} date @param {string} time */
export const preparedMoment = (date, time) => moment(`20${date}${time}`, "203");

/** A moment on the reader's clock, in milliseconds.
 * @param {number} at */
export function momentInWords(at) {
  const date = new Date(at);
  return dateInWords(day(date) + minute(date), "203");
}

/** The date and time of a UNB, whose year has two digits.
 * @param {string} date @param {string} time */
export const preparedInWords = (date, time) => dateInWords(`20${date}${time}`, "203");

/** When the hub handed an interchange out, which it writes at UTC, on the reader's clock.
 * @param {{ date: string, time: string }} head */
export function cameInInWords({ date, time }) {
  if (!isDate(`20${date}${time}`, "203")) return preparedInWords(date, time);
  const [year, month, of, hour, min] = `${date}${time}`.match(/../g)?.map(Number) ?? [];
  return momentInWords(Date.UTC(2000 + year, month - 1, of, hour, min));
}
