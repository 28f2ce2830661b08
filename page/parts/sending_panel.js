// @ts-check
// Says in words how a document that was sent is doing, and has the button that sends the same again.

import { inWords } from "../hub/answers.js";
import { phrases } from "../language.js";
import { locale } from "../words/figures.js";
import { codeInWords } from "./code.js";
import { button, element, notice, saying } from "./dom.js";
import { hubsReply, notUnderstood, rawDetails } from "./raw.js";

/** @typedef {import("../hub/sending.js").Sending} Sending */
/** @typedef {(sending: Sending) => Node[]} Tell what is said of an answer */

/** The time on the clock of whoever reads; in the `medium` style with seconds, for what is waited for.
 * @param {number} moment @param {"short" | "medium"} [timeStyle] */
export const clockTime = (moment, timeStyle = "short") => new Date(moment).toLocaleTimeString(locale(), { timeStyle });

/** The place that says how a document is doing. It is in the page before it speaks, so that a screen reader hears all of it. */
export const sendingRegion = () => element("div", { class: "delivery", role: "status", "aria-live": "polite", tabindex: "-1" });

/** Says in a region how this document is doing; the focus stays in the region if it was there.
 * @param {HTMLElement} region @param {Sending} sending @param {Tell} [answered] */
export function tell(region, sending, answered = verdictNotice) {
  const focused = region.contains(document.activeElement);
  region.dataset.sending = sending.facts.id;
  region.replaceChildren(...told(sending, answered));
  if (focused) region.focus({ preventScroll: true });
}

/** @param {Sending} sending @param {Tell} answered @returns {Node[]} */
function told(sending, answered) {
  const { facts } = sending;
  switch (facts.state) {
    case "sending":
      return [saying("plain", phrases.sending.sending)];
    case "resending":
      return [saying("plain", phrases.sending.resending)];
    case "held":
    case "pausing":
      return [saying("warn", pauseInWords(sending))];
    case "unanswered":
      return [unanswered(sending), whatWasSent(sending)];
    default:
      return [...answered(sending), whatWasSent(sending)];
  }
}

/** @param {Sending} sending */
const whatWasSent = ({ facts }) => rawDetails(phrases.common.whatWasSent, facts.text);

/** Why the page waits before it sends again.
 * @param {Sending} sending */
export function pauseInWords({ facts }) {
  const why = facts.reason ? inWords(facts.reason) : denial(facts.reply);
  const at = facts.until > Date.now() ? clockTime(facts.until, "medium") : "";
  if (facts.state === "held") return phrases.sending.held(why, at);
  return `${phrases.sending.pausing(why, at)} ${phrases.sending.safe}`;
}

/** @param {Sending} sending */
function unanswered(sending) {
  const { what, reason, reply, until, tries } = sending.facts;
  const why = reason ? inWords(reason) : denial(reply);
  return notice(
    "warn",
    element("h3", {}, phrases.sending.noReply),
    element("p", {}, phrases.sending.unanswered(what, tries, why)),
    reason === "unreadable" ? element("pre", { class: "raw" }, reply) : null,
    element("p", {}, phrases.sending.safe),
    until > Date.now() ? element("p", {}, phrases.sending.askedToWait(clockTime(until, "medium"))) : null,
    againButton(sending),
  );
}

/** @param {Sending} sending */
export const againButton = (sending) => button(phrases.sending.again, () => void sending.again(), { class: "primary" });

/** What an answer means that is none of the hub's to an upload.
 * @param {string} reply */
export function denial(reply) {
  if (reply.startsWith("403")) return phrases.sending.denied;
  if (reply.startsWith("413")) return phrases.sending.tooLarge;
  return phrases.sending.notTaken(reply);
}

/** The hub's answer in words, with its code.
 * @param {Sending} sending @returns {Node[]} */
export function verdictNotice({ state, verdict, facts: { reply } }) {
  if (state === "denied") return [saying("bad", denial(reply))];
  if (!verdict) return [notUnderstood(phrases.common.notUnderstood, reply)];
  const kind = { accepted: "good", partly: "warn", repeated: "good", refused: "bad" }[verdict.outcome];
  const words = [element("p", { class: "outcome" }, phrases.outcomes[verdict.outcome])];
  if (verdict.code) words.push(element("p", {}, codeInWords(verdict.code)));
  return [notice(kind, ...words, hubsReply(reply))];
}
