// @ts-check
// Lists what was sent in this session, with what became of it.

import { momentInWords } from "../edi/dates.js";
import { phrases } from "../language.js";
import { element, heading, link } from "../parts/dom.js";
import { downloadButton } from "../parts/download.js";
import { Table } from "../parts/table.js";
import { verdictInFile, verdictPlace } from "../parts/verdict.js";
import { partyNames } from "../party_names.js";
import { acceptedDespatch, labelsAddress } from "./labels.js";

/** @typedef {import("../hub/sending.js").Sending} Sending */

/** @param {import("../start.js").Context} context */
export async function sentScreen({ session }) {
  const rows = [...session.sent.sendings];
  const { nameOf } = partyNames(session);
  const ofSent = columns((gln) => nameOf(gln) || gln);
  const table = new Table({ caption: phrases.common.whatWasSent, kind: "sent", columns: ofSent, rows, empty: phrases.sent.empty });
  const check = element("p", {}, ...phrases.explain.without(link(phrases.explain.title, "explain")));
  const { title, lead } = phrases.sent;
  return { title, content: [heading(title), element("p", { class: "lead" }, lead), table.element, check] };
}

/** @param {(gln: string) => string} byName @returns {import("../parts/table.js").Column<Sending>[]} */
function columns(byName) {
  const words = (/** @type {Sending} */ it) => ({ more: () => papers(it), byName });
  return [
    { title: phrases.sent.at, cell: sentAt, value: (it) => it.facts.sentAt },
    { title: phrases.sent.what, cell: (it) => element("span", { class: "exact" }, it.facts.what), value: (it) => it.facts.what },
    { title: phrases.common.result, cell: (it) => verdictPlace(it, words(it)), csv: (it) => verdictInFile(it, words(it)), kind: "long" },
    { title: "", cell: download, kind: "action" },
  ];
}

/** @param {Sending} sending */
const sentAt = ({ facts }) => momentInWords(facts.sentAt);

/** @param {Sending} sending */
const papers = (sending) => (acceptedDespatch(sending) ? [link(phrases.common.labels, labelsAddress(sending.facts.id))] : []);

/** @param {Sending} sending */
function download({ facts: { id, file, kind, text } }) {
  if (kind === "cancellation") return downloadButton(phrases.sent.txt, `cancellation-${id}.txt`, text);
  return downloadButton(phrases.common.downloadEdi, file || `sent-${id}.edi`, text);
}
