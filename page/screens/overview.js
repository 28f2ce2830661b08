// @ts-check
// The planner's overview: a row for each supplier of the list, from statuses that are fetched one after another.

import { day } from "../edi/dates.js";
import { phrases } from "../language.js";
import { element, figure, heading, link } from "../parts/dom.js";
import { FetchControls } from "../parts/fetch_controls.js";
import { FilteredTable } from "../parts/filtered_table.js";
import { searchForm } from "../parts/search_form.js";
import { clockTime } from "../parts/sending_panel.js";
import { supplierColumns } from "../parts/supplier_columns.js";
import { supplierListPart } from "../parts/supplier_list.js";
import { overdueOf } from "../suppliers/open_rows.js";
import { plannerOf, watch } from "../suppliers/planner.js";

/** @typedef {import("../suppliers/planner.js").Planner} Planner */
/** @typedef {import("../suppliers/round.js").Result} Result */
/** @typedef {import("../suppliers/figures.js").Figures} Figures */
/** @typedef {{ gln: string, name: string, result: Result | null, overdue: number | null }} Row */

/** @param {Row} row @param {"openLines" | "open" | "unanswered" | "announced" | "different"} name */
const count = ({ result }, name) => result?.figures?.[name] ?? 0;

/** @returns {[string, string, (row: Row) => boolean][]} */
const shown = () => [
  ["all", phrases.overview.allSuppliers, () => true],
  ["open", phrases.common.withSomethingOpen, (it) => count(it, "openLines") > 0],
  ["waiting", phrases.overview.withUnansweredLines, (it) => count(it, "unanswered") > 0],
  ["late", phrases.overview.withSomethingOverdue, (it) => (it.overdue ?? 0) > 0],
  ["announced", phrases.common.announcedNotReceived, (it) => count(it, "announced") > 0],
  ["different", phrases.common.withADifference, (it) => count(it, "different") > 0],
  ["failed", phrases.overview.failed, (it) => !it.result?.figures],
];

/** @param {import("../start.js").Context} context */
export async function overviewScreen({ session, go }) {
  const planner = await plannerOf(session);
  const list = supplierListPart(planner.list);
  const controls = new FetchControls(planner);
  const rows = new Rows(planner);
  const words = { caption: phrases.overview.suppliers, kind: "across", empty: phrases.overview.empty, sums: true };
  const table = new FilteredTable(
    { ...words, columns: columns(), rows: rows.drawn() },
    { label: phrases.overview.filter, kinds: shown(), words: (it) => [it.name, it.gln] },
  );
  const search = searchForm(go, "", link(phrases.overview.openLinesOfAll, "open-lines", { class: "button" }));
  const title = element("h2", {}, phrases.overview.suppliers);
  const fetched = element("section", {}, search, title, table.filter.element, table.table.element);
  const draw = () => {
    list.draw();
    controls.draw();
    table.show(rows.drawn());
    fetched.hidden = !planner.list.suppliers.length;
  };
  draw();
  const content = [heading(phrases.overview.title), list.element, controls.element, fetched];
  return { title: phrases.overview.title, content, leave: watch(planner, draw) };
}

/** The rows of the table; one that did not change stays the same. */
class Rows {
  /** @type {Map<string, Row>} */
  #known = new Map();

  /** @param {Planner} planner */
  constructor(planner) {
    this.planner = planner;
  }

  drawn() {
    const today = day(new Date());
    return this.planner.list.suppliers.map(({ gln, name }) => {
      const result = this.planner.round.results.get(gln) ?? null;
      const row = { gln, name, result, overdue: overdueOf(this.planner, gln, today) };
      const known = this.#known.get(gln);
      if (known && known.name === name && known.result === result && known.overdue === row.overdue) return known;
      this.#known.set(gln, row);
      return row;
    });
  }
}

/** @returns {import("../parts/table.js").Column<Row>[]} */
function columns() {
  /** @param {string} title @param {(row: Row) => number | null} value null if it is not known @returns {import("../parts/table.js").Column<Row>} */
  const number = (title, value) => ({
    title,
    cell: (it) => (it.result?.figures && value(it) !== null ? figure(value(it) ?? 0) : "–"),
    value: (it) => value(it) ?? 0,
    number: true,
    sum: true,
  });
  const highest = (/** @type {Row} */ { result }) => result?.figures?.highest || "–";
  return [
    ...supplierColumns((/** @type {Row} */ it) => it.name),
    number(phrases.common.openLines, (it) => count(it, "openLines")),
    number(phrases.overview.openPieces, (it) => count(it, "open")),
    number(phrases.overview.unanswered, (it) => count(it, "unanswered")),
    number(phrases.common.overdue, (it) => it.overdue),
    number(phrases.overview.notReceived, (it) => count(it, "announced")),
    number(phrases.overview.differences, (it) => count(it, "different")),
    { title: phrases.overview.highestSscc, cell: highest, value: highest, kind: "digits" },
    { title: phrases.overview.fetched, cell: fetchedInWords, value: (it) => it.result?.at ?? 0 },
  ];
}

/** @param {Row} row */
function fetchedInWords({ result }) {
  if (!result) return phrases.overview.notYet;
  return result.wrong ? element("span", { class: "result refused reason" }, result.wrong()) : clockTime(result.at);
}
