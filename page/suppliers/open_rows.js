// @ts-check
// The lines of all fetched suppliers that have something open, with the days on which they are wanted.

import { inTurn } from "../today_rows.js";

/** @typedef {import("./planner.js").Planner} Planner */
/** @typedef {import("../hub/replies.js").StatusLine} StatusLine */
/** @typedef {import("../today_rows.js").Due} Due */
/** @typedef {StatusLine & Due & { gln: string }} OpenRow */

/** When a line is due. An order whose number stands for several, which differ in blanks at the end, may have no certain day.
 * @param {Planner} planner @param {string} gln @param {string} order @param {string} today CCYYMMDD @param {boolean} [isOpen]
 * @returns {Due} */
export function dueOf({ days }, gln, order, today, isOpen = true) {
  const wanted = days.dayOf(gln, order);
  return { day: wanted, isWanted: wanted !== "", isLate: isOpen && wanted !== "" && wanted < today };
}

/** Overdue ones first, then by day.
 * @param {Planner} planner @param {string} today CCYYMMDD @returns {OpenRow[]} */
export function openRows(planner, today) {
  const results = [...planner.round.results];
  const rows = results.flatMap(([gln, { open }]) => open.map((it) => ({ ...it, gln, ...dueOf(planner, gln, it.order, today) })));
  return inTurn(rows);
}

/** How many open lines of a supplier are overdue; null if some are open, and no wanted day of one is known.
 * @param {Planner} planner @param {string} gln @param {string} today CCYYMMDD */
export function overdueOf(planner, gln, today) {
  const open = planner.round.results.get(gln)?.open ?? [];
  const due = open.map((it) => dueOf(planner, gln, it.order, today));
  return due.length && !due.some((it) => it.isWanted) ? null : due.filter((it) => it.isLate).length;
}
