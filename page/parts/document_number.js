// @ts-check
// The number of a document that the page writes.

import { day, minute, second } from "../edi/dates.js";
import { phrases } from "../language.js";

/** What is wrong with a document number, if anything.
 * @param {string} number */
export const wrongNumber = (number) =>
  /^[\x20-\x7e]{1,35}$/.test(number) ? "" : phrases.documentNumber.wrong;

/** A document number from the local clock, to the second: its day is the document's date.
 * @param {Date} [now] */
export const proposedNumber = (now = new Date()) => day(now).slice(2) + minute(now) + second(now);
