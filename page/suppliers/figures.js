// @ts-check
// Counts what a status report says of a supplier, by the same kinds as the screen that shows it.

import { isAnnounced, isDifferent, isOpen, isUnanswered } from "../hub/status_kinds.js";

/** @typedef {import("../hub/replies.js").StatusLine} StatusLine */
/** @typedef {import("../hub/replies.js").StatusPallet} StatusPallet */
/** @typedef {{ openLines: number, open: number, unanswered: number, announced: number, different: number, highest: string }} Figures
 * lines and pieces that are open, lines that wait for an answer, pallets that are announced and not received, pallets with a difference,
 * and the highest SSCC, which is mostly that of the last despatch: a status has no dates */

/** @param {{ lines: StatusLine[], pallets: StatusPallet[] }} status @returns {Figures} */
export function figuresOf({ lines, pallets }) {
  const open = lines.filter(isOpen);
  const counted = (/** @type {StatusPallet[]} */ some) => new Set(some.map((it) => it.sscc)).size;
  return {
    openLines: open.length,
    open: open.reduce((all, it) => all + it.open, 0),
    unanswered: lines.filter(isUnanswered).length,
    announced: counted(pallets.filter(isAnnounced)),
    different: counted(pallets.filter(isDifferent)),
    highest: pallets.reduce((most, it) => (it.sscc > most ? it.sscc : most), ""),
  };
}
