// @ts-check
// What counts as open, unanswered, announced and different in a status report, wherever the page filters or counts it.

/** @typedef {import("./replies.js").StatusLine} StatusLine */
/** @typedef {import("./replies.js").StatusPallet} StatusPallet */

/** @param {StatusLine} line */
export const isOpen = (line) => line.open > 0;

/** @param {StatusLine} line */
export const isUnanswered = (line) => line.answer === "W";

/** Whether it is announced and not received.
 * @param {StatusPallet} pallet */
export const isAnnounced = (pallet) => pallet.state === "A";

/** @param {StatusPallet} pallet */
export const isDifferent = (pallet) => pallet.difference !== 0;
