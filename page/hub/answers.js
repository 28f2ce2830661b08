// @ts-check
// Distinguishes answers of the hub from those of its front (docs/SUPPLIER.md), and from what is not an answer at all.

import { phrases } from "../language.js";

/** @typedef {"connection" | "patience" | "cut" | "slow" | "too many" | "busy" | "stopped" | "away" | "unreadable" | "reload"} Reason
 * why there is no answer */

/** Why this is no answer of the hub, or "" if it may be one.
 * @param {number} status @param {string} body @returns {Reason | ""} */
export function reasonOf(status, body) {
  if (status === 408) return "slow";
  if (status === 429) return "too many";
  if (status === 400 && body === "bad request\n") return "cut";
  if (status === 503) return body.endsWith("stopped\n") || body === "" ? "stopped" : "busy";
  return status >= 500 ? "away" : "";
}

const DENIALS = ["403 denied", "404 unknown", "405 method", "411 length"];

/** Whether the hub, or its front, says by this that it did nothing.
 * @param {number} status @param {string} body */
export const isDenial = (status, body) => status === 413 || DENIALS.includes(`${status} ${body}`);

const LONGEST_WAIT = 24 * 3600 * 1000;

/** The milliseconds that a field `Retry-After` asks for (a number of seconds, or a date); 0 if it asks for none.
 * @param {string | null} field @param {number} [now] */
export function waitOf(field, now = Date.now()) {
  const text = field?.trim() ?? "";
  const asked = /^\d+$/.test(text) ? Number(text) * 1000 : Date.parse(text) - now;
  return asked > 0 ? Math.min(asked, LONGEST_WAIT) : 0;
}

/** @param {Reason} reason */
export const inWords = (reason) => phrases.reasons[reason];
