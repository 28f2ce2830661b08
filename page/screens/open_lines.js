// @ts-check
// The open lines of all fetched suppliers, with the days on which they are wanted, from the ORDERS files that the planner gives.

import { Articles } from "../articles.js";
import { day } from "../edi/dates.js";
import { textOfBytes } from "../hub/client.js";
import { isUnanswered } from "../hub/status_kinds.js";
import { LONGEST } from "../hub/upload_queue.js";
import { phrases } from "../language.js";
import { element, heading, link, sayOnce, saying } from "../parts/dom.js";
import { dropZone } from "../parts/drop_zone.js";
import { dueColumn } from "../parts/due.js";
import { FilteredTable } from "../parts/filtered_table.js";
import { supplierColumns } from "../parts/supplier_columns.js";
import { openRows } from "../suppliers/open_rows.js";
import { plannerOf, watch } from "../suppliers/planner.js";
import { lineColumns } from "./status.js";

/** @typedef {import("../suppliers/planner.js").Planner} Planner */
/** @typedef {import("../suppliers/open_rows.js").OpenRow} OpenRow */

const choice = () => ({
  label: phrases.openLines.choose,
  hint: phrases.openLines.chooseHint,
  accept: ".edi,.edifact,.txt",
});
const SOON_DAYS = 7;
const MOST_DRAWN = 500;
const WITHOUT = ["despatched", "refused", "cancelled", "shares"];

/** @param {string} today @param {string} last CCYYMMDD @returns {[string, string, (row: OpenRow) => boolean][]} */
const shown = (today, last) => [
  ["all", phrases.openLines.allOpenLines, () => true],
  ["late", phrases.common.overdue, (it) => it.isLate],
  ["soon", phrases.openLines.soon(SOON_DAYS), (it) => it.isWanted && it.day >= today && it.day <= last],
  ["undated", phrases.openLines.undated, (it) => !it.isWanted],
  ["waiting", phrases.common.notAnsweredYet, isUnanswered],
];

/** @param {import("../start.js").Context} context */
export async function openLinesScreen({ session }) {
  const planner = await plannerOf(session);
  const now = new Date();
  const [today, last] = [day(now), day(new Date(now.getFullYear(), now.getMonth(), now.getDate() + SOON_DAYS))];
  const nameOf = (/** @type {string} */ gln) => planner.list.nameOf(gln);
  const rows = () => openRows(planner, today);
  const words = { caption: phrases.common.openLines, kind: "across", empty: phrases.openLines.empty, sums: true, most: MOST_DRAWN };
  const table = new FilteredTable(
    { ...words, columns: columns(nameOf), rows: rows() },
    { label: phrases.openLines.filter, kinds: shown(today, last), words: (it) => [nameOf(it.gln), it.gln, it.order, it.gtin] },
  );
  const lead = element("p", { class: "lead", role: "status" });
  const draw = () => sayOnce(lead, inWords(planner, table.rows));
  draw();
  const leave = watch(planner, () => [table.show(rows()), draw()]);
  const back = element("p", { class: "back" }, link(`‹ ${phrases.overview.title}`, "overview"));
  const content = [back, heading(phrases.common.openLines), lead, daysPart(planner), table.filter.element, table.table.element];
  return { title: phrases.common.openLines, content, leave };
}

/** @param {Planner} planner @param {OpenRow[]} rows */
function inWords({ round }, rows) {
  const fetched = [...round.results.values()].filter((it) => it.figures).length;
  if (!fetched) return phrases.common.noneFetched;
  const late = rows.filter((it) => it.isLate).length;
  const undated = rows.filter((it) => !it.isWanted).length;
  return phrases.openLines.open(rows.length, fetched, late, undated);
}

/** Takes files of orders, and says of each what it brought.
 * @param {Planner} planner */
function daysPart({ days }) {
  const said = element("div", { class: "happened", role: "status", tabindex: "-1" });
  const take = async (/** @type {File[]} */ files) => {
    const found = [];
    for (const it of files) {
      const text = it.size > LONGEST ? "" : textOfBytes(await it.arrayBuffer());
      found.push({ name: it.name, learned: days.learn(text) });
    }
    said.replaceChildren(...found.map(({ name, learned }) => saying(learned ? "good" : "bad", learnedInWords(name, learned))));
    details.open = !days.size;
    said.focus({ preventScroll: true });
  };
  const summary = element("summary", {}, phrases.openLines.give);
  const zone = dropZone(choice(), take);
  const details = /** @type {HTMLDetailsElement} */ (element("details", { class: "list", open: !days.size }, summary, zone));
  return element("section", { class: "no-print" }, details, said);
}

/** @param {string} name @param {{ dated: number, undated: number } | null} learned */
function learnedInWords(name, learned) {
  if (!learned) return phrases.openLines.noOrder(name);
  return phrases.openLines.learned(name, learned.dated, learned.undated);
}

/** @param {(gln: string) => string} nameOf @returns {import("../parts/table.js").Column<OpenRow>[]} */
function columns(nameOf) {
  const ofLines = lineColumns(new Articles(), phrases.common.suppliersAnswer, ...WITHOUT);
  return [...supplierColumns((/** @type {OpenRow} */ it) => nameOf(it.gln)), ...ofLines, dueColumn((it) => it)];
}
