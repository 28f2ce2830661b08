// @ts-check
// Says in few words what became of a document that was sent, as in a row of a table.

import { namesInFile } from "../edi/document_names.js";
import { inWords } from "../hub/answers.js";
import { readUpload } from "../hub/replies.js";
import { phrases } from "../language.js";
import { codeInWords } from "./code.js";
import { element } from "./dom.js";
import { hubsReply } from "./raw.js";
import { againButton, denial, pauseInWords } from "./sending_panel.js";

/** @typedef {import("../hub/sending.js").Sending} Sending */

/** @typedef {{ more?: () => Node[], byName?: (gln: string) => string }} Words what is shown after a reply, and how suppliers are named */

/** The verdict, which is drawn again when it changes.
 * @param {Sending} sending @param {Words} [words] @param {string | null} [role] null if something else speaks of many at once */
export function verdictPlace(sending, words, role = "status") {
  const place = element("div", { class: "verdict", role, tabindex: "-1", "data-sending": sending.facts.id });
  const draw = () => {
    const focused = place.contains(document.activeElement);
    place.replaceChildren(...verdictInWords(sending, words));
    if (focused) place.focus();
  };
  sending.addEventListener("change", draw);
  draw();
  return place;
}

/** @param {Sending} sending @param {Words} words */
function verdictInWords(sending, { more = () => [], byName = (gln) => gln } = {}) {
  const { state, reply, reason } = sending.facts;
  if (state === "review") return [element("p", {}, phrases.common.waits)];
  if (state === "sending" || state === "resending") return [element("p", {}, phrases.verdict.beingSent)];
  if (state === "held" || state === "pausing") return [element("p", {}, pauseInWords(sending))];
  if (state === "denied") return [element("p", { class: "result refused" }, denial(reply))];
  if (state !== "unanswered") return [...results(sending, byName), hubsReply(reply), ...more()];
  const why = reason ? inWords(reason) : denial(reply);
  return [element("p", {}, phrases.verdict.noReply(why)), againButton(sending)];
}

/** The verdict as one text, with the reply and without buttons.
 * @param {Sending} sending @param {Words} [words] */
export function verdictInFile(sending, words) {
  const shown = verdictInWords(sending, words).filter((it) => !(it instanceof HTMLButtonElement));
  return shown.map((it) => ((it instanceof Element && it.querySelector("pre")) || it).textContent).join(" ");
}

/** @param {Sending} sending @param {(gln: string) => string} byName */
function results({ verdict, facts }, byName) {
  const result = (/** @type {string} */ outcome, /** @type {string} */ code, /** @type {string} */ before = "") =>
    element("p", { class: `result ${outcome}` }, before, phrases.outcomes[outcome], code ? " " : null, code ? codeInWords(code) : null);
  const messages = facts.kind === "file" ? readUpload(facts.reply)?.messages ?? [] : [];
  if (!messages.length) return verdict ? [result(verdict.outcome, verdict.code)] : [];
  const names = namesInFile(facts.text);
  const about = (/** @type {string} */ type, /** @type {import("../edi/document_names.js").Names | undefined} */ named) =>
    named?.document ? ` ${phrases.verdict.about(phrases.types[type] ?? type, named.document, byName(named.supplier))}` : "";
  const before = (/** @type {import("../hub/replies.js").MessageReply} */ { reference, type }) =>
    `${phrases.verdict.message(reference)}${about(type, names.get(reference))}: `;
  return messages.map((it) => result(it.outcome, it.code, before(it)));
}
