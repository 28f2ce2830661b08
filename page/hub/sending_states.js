// @ts-check
// Says how one document goes from an empty form to the hub's verdict, as a table of states and events. The table has no page, clock or
// network in it, so that it can be tried by itself.

/** @typedef {"empty" | "typed" | "review" | "sending" | "held" | "pausing" | "resending" | "unanswered" | "accepted" | "refused"
 *   | "denied"} State */
/** @typedef {"type" | "clear" | "review" | "edit" | "send" | "accept" | "refuse" | "deny" | "hold" | "break" | "resume" | "again"} Event */

/**
 * What each event makes of each state; an event that is not listed changes nothing.
 *
 * - `empty`, `typed`, `review`: nothing was sent. In `review` the summary is shown, and the form is locked.
 * - `sending`: the first try. `held`: the try was turned away before the hub saw it, so the next one is a first try again.
 * - `pausing`, `resending`, `unanswered`: a try got no answer, so the hub may have done it. Only an answer ends this; a denial does not,
 *   because it says nothing about the earlier tries. In `unanswered` it is the person's turn.
 * - `accepted`, `refused`, `denied`: the hub answered. A form that goes on begins a new document with a new reference.
 *
 * @type {Record<State, Partial<Record<Event, State>>>}
 */
export const TRANSITIONS = {
  empty: { type: "typed", review: "review" },
  typed: { clear: "empty", review: "review" },
  review: { edit: "typed", send: "sending" },
  sending: { accept: "accepted", refuse: "refused", deny: "denied", hold: "held", break: "pausing" },
  held: { resume: "sending" },
  pausing: { resume: "resending" },
  resending: { accept: "accepted", refuse: "refused", deny: "unanswered", hold: "pausing", break: "unanswered" },
  unanswered: { again: "pausing" },
  accepted: {},
  refused: {},
  denied: {},
};

/** The state after an event, or null if the event does not count in this state.
 * @param {State} state @param {Event} event */
export const after = (state, event) => TRANSITIONS[state][event] ?? null;

/** @param {...State} states */
const among = (...states) => (/** @type {State} */ state) => states.includes(state);

/** A request is under way. */
export const isOnItsWay = among("sending", "resending");
/** The page sends again by itself when the pause is over. */
export const isWaiting = among("held", "pausing");
/** It was sent, and no answer ended it yet. */
export const isUnsettled = among("sending", "held", "pausing", "resending", "unanswered");
/** The hub's answer ended it. */
export const isSettled = among("accepted", "refused", "denied");
/** It holds work that was typed and not sent. */
export const isUnsent = among("typed", "review");
