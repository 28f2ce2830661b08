// @ts-check
// The despatch note: what is announced, pallet by pallet, on paper.

import { dateInWords } from "../edi/dates.js";
import { phrases } from "../language.js";
import { articleCell, articleColumn } from "../parts/article.js";
import { element, exact, figure, terms } from "../parts/dom.js";
import { orderNumber } from "../parts/order_number.js";
import { Table } from "../parts/table.js";

/** @typedef {import("../edi/despatch.js").DespatchLine} DespatchLine */

/** @param {import("../edi/despatch.js").Despatch} despatch @param {{ from: string, to: string }} parties
 * @param {import("../articles.js").Articles} articles */
export function despatchNote(despatch, { from, to }, articles) {
  const pallets = despatch.units.map(({ sscc, lines }, place) => {
    const caption = phrases.despatchNote.caption(place + 1);
    const words = { caption, kind: "note-lines", columns: columns(articles), rows: lines, sums: true };
    return element("section", {}, element("h3", {}, phrases.despatchNote.pallet(place + 1, sscc)), new Table(words).element);
  });
  return element(
    "section",
    { class: "despatch-note" },
    element("h2", {}, ...phrases.despatchNote.title(exact(despatch.document))),
    terms([
      [phrases.common.date, dateInWords(despatch.date, despatch.format)],
      [phrases.common.from, exact(from)],
      [phrases.common.to, exact(to)],
      [phrases.common.pallets, figure(despatch.units.length)],
    ]),
    ...pallets,
  );
}

/** @param {import("../articles.js").Articles} articles @returns {import("../parts/table.js").Column<DespatchLine>[]} */
function columns(articles) {
  return [
    { title: phrases.common.order, cell: ({ order }) => orderNumber({ order }) },
    { title: phrases.common.line, cell: (it) => it.line ?? "–" },
    articleColumn((/** @type {DespatchLine} */ it) => it.gtin, (it) => articleCell(it.gtin, articles.of(it))),
    { title: phrases.despatchNote.quantity, cell: (it) => figure(it.quantity), value: (it) => it.quantity, number: true, sum: true },
  ];
}
