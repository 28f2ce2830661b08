// @ts-check
// What has a text in its order number, article or SSCC, in the fetched statuses of all suppliers.

import { Articles } from "../articles.js";
import { phrases } from "../language.js";
import { element, heading, link } from "../parts/dom.js";
import { searchForm, wrongSearch } from "../parts/search_form.js";
import { supplierColumns } from "../parts/supplier_columns.js";
import { Table } from "../parts/table.js";
import { plannerOf } from "../suppliers/planner.js";
import { MOST_FOUND, search } from "../suppliers/search.js";
import { lineColumns, palletColumns } from "./status.js";

/** @typedef {import("../suppliers/search.js").Found} Found */

/** @param {import("../start.js").Context} context @param {string} [text] */
export async function searchScreen({ session, go }, text = "") {
  const { list, round } = await plannerOf(session);
  const back = element("p", { class: "back" }, link(`‹ ${phrases.overview.title}`, "overview"));
  const content = [back, heading(phrases.common.searchAllSuppliers), searchForm(go, text)];
  if (wrongSearch(text)) return { title: phrases.search.title, content };
  const found = search(round.results, text);
  const fetched = [...round.results.values()].filter((it) => it.figures).length;
  const named = (/** @type {{ gln: string }} */ it) => list.nameOf(it.gln);
  const words = { kind: "across", empty: phrases.search.empty };
  const answer = phrases.common.suppliersAnswer;
  const ofLines = [...supplierColumns(named), ...lineColumns(new Articles(), answer, "refused", "cancelled", "shares")];
  const lines = new Table({ ...words, caption: phrases.common.orderLines, columns: ofLines, rows: found.lines });
  const ofPallets = [...supplierColumns(named), ...palletColumns(new Articles(), "returned", "destroyed")];
  const pallets = new Table({ ...words, caption: phrases.common.pallets, columns: ofPallets, rows: found.pallets });
  content.push(
    element("p", { class: "lead", role: "status" }, inWords(found, text, fetched)),
    element("section", {}, element("h2", {}, phrases.common.orderLines), lines.element),
    element("section", {}, element("h2", {}, phrases.common.pallets), pallets.element),
  );
  return { title: phrases.search.titleOf(text), content };
}

/** @param {Found} found @param {string} text @param {number} fetched */
function inWords({ lines, pallets, isCut }, text, fetched) {
  if (!fetched) return phrases.common.noneFetched;
  const said = phrases.search.found(text, lines.length, pallets.length, fetched);
  return isCut ? `${said} ${phrases.search.cut(MOST_FOUND)}` : said;
}
