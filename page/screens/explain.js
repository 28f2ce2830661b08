// @ts-check
// Checks a file: says what an interchange says, or what is wrong with it and where, as `edihub show` does. Nothing is sent to the hub.

import { preparedInWords } from "../edi/dates.js";
import { readShown } from "../edi/shown.js";
import { textOfBytes } from "../hub/client.js";
import { explain, whyNotHere } from "../hub/explain.js";
import { phrases } from "../language.js";
import { button, element, exact, heading, saying, terms } from "../parts/dom.js";
import { dropZone } from "../parts/drop_zone.js";
import { faultInWords } from "../parts/fault_in_words.js";
import { notUnderstood } from "../parts/raw.js";
import { partyNames } from "../party_names.js";

/** @typedef {import("../edi/shown.js").Shown} Shown */
/** @typedef {import("../edi/shown.js").ShownMessage} ShownMessage */
/** @typedef {import("../hub/explain.js").Why} Why */
const choice = () => ({
  label: phrases.explain.choose,
  hint: phrases.explain.chooseHint(LONGEST),
  accept: ".edi,.edifact,.txt",
  multiple: false,
});
const LONGEST = 1_048_576;
const LONG = { code: "E01", segment: null, offset: null };

/** @param {import("../start.js").Context} context */
export async function explainScreen({ session, go }) {
  const why = await whyNotHere();
  const { title } = phrases.explain;
  if (why === "absent") return { title, content: [heading(title), saying("plain", phrases.explain.why.absent)] };
  const lead = element("p", { class: "lead" }, phrases.explain.lead);
  if (why) {
    const again = button(phrases.common.tryAgain, () => go("explain"), { class: "primary" });
    return { title, content: [heading(title), lead, saying("warn", phrases.explain.why[why]), again] };
  }
  return { title, content: [heading(title), lead, ...checker(partyNames(session).byName)] };
}

/** The place to choose a file, and what is said of the last one.
 * @param {(gln: string) => string} byName */
function checker(byName) {
  const verdict = element("div", { role: "status", tabindex: "-1", class: "verdict" });
  const details = element("div", { class: "explained" });
  let last = 0;
  const zone = dropZone(choice(), async ([file, ...others]) => {
    if (!file) return;
    const now = (last += 1);
    verdict.replaceChildren(element("p", {}, phrases.explain.reading(file.name)));
    details.replaceChildren();
    const said = others.length ? { verdict: [saying("warn", phrases.explain.oneAtATime)], details: [] } : await explained(file, byName);
    // another file may have been chosen meanwhile
    if (now !== last) return;
    verdict.replaceChildren(element("h2", {}, file.name), ...said.verdict);
    details.replaceChildren(...said.details);
    verdict.focus({ preventScroll: true });
  });
  return [zone, verdict, details];
}

/** @param {File} file @param {(gln: string) => string} byName @returns {Promise<{ verdict: HTMLElement[], details: HTMLElement[] }>} */
async function explained(file, byName) {
  if (file.size > LONGEST) return { verdict: [saying("bad", phrases.explain.refusedAsAWhole)], details: faultInWords(LONG, "") };
  const bytes = await file.arrayBuffer().catch(() => null);
  if (!bytes) return { verdict: [saying("bad", phrases.explain.unreadable)], details: [] };
  const { text, why } = await explain(new Uint8Array(bytes));
  if (why) return { verdict: [saying("warn", phrases.explain.why[why])], details: [] };
  const shown = readShown(text);
  if (!shown) return { verdict: [notUnderstood(phrases.explain.notUnderstood, text)], details: [] };
  return { verdict: verdictOn(shown), details: detailsOf(shown, textOfBytes(bytes), byName) };
}

/** @param {Shown} shown @returns {HTMLElement[]} */
function verdictOn({ fault, messages }) {
  if (fault) return [saying("bad", phrases.explain.refusedAsAWhole)];
  const wrong = messages.filter((it) => it.fault).length;
  const kind = wrong ? "bad" : "good";
  const { someWrong, noneWrong } = phrases.explain;
  const words = wrong ? someWrong(wrong, messages.length) : noneWrong(messages.length);
  return [saying(kind, words), element("p", { class: "hint" }, phrases.explain.more)];
}

/** @param {Shown} shown @param {string} text of the file @param {(gln: string) => string} byName @returns {HTMLElement[]} */
function detailsOf({ fault, head, messages }, text, byName) {
  if (fault) return faultInWords(fault, text);
  if (!head) return [];
  const rows = terms([
    [phrases.common.interchange, exact(head.reference)],
    [phrases.explain.sender, exact(byName(head.sender))],
    [phrases.explain.recipient, exact(byName(head.recipient))],
    [phrases.explain.prepared, preparedInWords(head.date, head.time)],
  ]);
  return [rows, ...messages.map((it) => messageCard(it, text))];
}

/** @param {ShownMessage} message @param {string} text of the file */
function messageCard({ place, reference, type, fault, lines }, text) {
  const title = element("h3", {}, ...phrases.explain.message(place, phrases.types[type] ?? type, exact(reference)));
  const says = fault ? faultInWords(fault, text) : [linesOf(lines, place)];
  return element("section", { class: `card shown-message${fault ? " has-fault" : ""}` }, title, ...says);
}

/** @param {string[]} lines @param {number} place */
function linesOf(lines, place) {
  return element("pre", { class: "raw", tabindex: "0", "aria-label": phrases.explain.whatItSays(place) }, lines.join("\n"));
}
