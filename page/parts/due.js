// @ts-check
// Shows when something is wanted, and whether that day is over.

import { dateInWords, moment } from "../edi/dates.js";
import { phrases } from "../language.js";
import { element } from "./dom.js";

/** @typedef {import("../today_rows.js").Due} Due */

/** @param {Due} due */
function dueInWords({ day, isWanted, isLate }) {
  const date = dateInWords(day, "102");
  if (!day) return "–";
  if (!isWanted) return phrases.due.ordered(date);
  return isLate ? element("span", {}, `${date} `, element("span", { class: "badge late" }, phrases.due.overdue)) : date;
}

/** @template Row
 * @param {(row: Row) => Due} of
 * @returns {import("./table.js").Column<Row>} */
export const dueColumn = (of) => ({
  title: phrases.due.wanted,
  cell: (it) => dueInWords(of(it)),
  value: (it) => moment(of(it).day, "102"),
});
