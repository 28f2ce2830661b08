// @ts-check
// What stands in an interchange, as it stands there.

import { phrases } from "../language.js";
import { element, notice } from "./dom.js";

/** The segments of a text, one a line, so that one can read them.
 * @param {string} text */
export const oneALine = (text) => text.replace(/((?:\?.|[^?'])*')/gs, "$1\n").trimEnd();

/** What the page does not understand.
 * @param {string} words @param {string} text */
export const notUnderstood = (words, text) => notice("warn", element("p", {}, words), element("pre", { class: "raw" }, text));

/** A text as it is written, which is shown once somebody asks for it.
 * @param {string} summary @param {string} text @param {boolean} [open] */
export function rawDetails(summary, text, open = false) {
  const raw = element("pre", { class: "raw", tabindex: "0", "aria-label": summary }, oneALine(text));
  return element("details", { class: "raw-details", open }, element("summary", {}, summary), raw);
}

/** @param {string} reply */
export const hubsReply = (reply) => rawDetails(phrases.common.whatTheHubReplied, reply);
