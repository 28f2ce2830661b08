// @ts-check
// What the planner's screens of one session share: the list of suppliers, what was fetched of each, and the days that orders name.

import { SupplierList } from "./list.js";
import { Round } from "./round.js";
import { WantedDays } from "./wanted_days.js";

/** @typedef {{ list: SupplierList, round: Round, days: WantedDays }} Planner */

// milliseconds between two drawings while statuses come
const DRAWN_EACH = 200;

/** @type {WeakMap<import("../session.js").Session, Planner>} */
const PLANNERS = new WeakMap();

/** The list of suppliers may not be there yet.
 * @param {import("../session.js").Session} session */
export function plannerAtOnce(session) {
  const planner = PLANNERS.get(session) ?? made(session);
  PLANNERS.set(session, planner);
  planner.list.load();
  return planner;
}

/** With the list of suppliers, if there is one, and the days of all orders that this tab has uploaded.
 * @param {import("../session.js").Session} session */
export async function plannerOf(session) {
  const planner = plannerAtOnce(session);
  await planner.list.load();
  const files = session.sent.sendings.filter((it) => it.facts.kind === "file" && it.state === "accepted");
  for (const { facts } of files) planner.days.learnOnce(facts.id, facts.text);
  return planner;
}

/** @param {import("../session.js").Session} session @returns {Planner} */
function made({ hub }) {
  const planner = { list: new SupplierList(hub.caller), round: new Round(hub), days: new WantedDays() };
  planner.list.addEventListener("change", () => planner.round.keep(planner.list.suppliers.map((it) => it.gln)));
  return planner;
}

/** Calls `draw` whenever something of it changes, but not more often than it takes to follow; returns what ends that.
 * @param {Planner} planner @param {() => void} draw */
export function watch({ list, round, days }, draw) {
  const end = new AbortController();
  let isSoon = false;
  const soon = () => {
    if (isSoon) return;
    isSoon = true;
    setTimeout(() => {
      isSoon = false;
      if (!end.signal.aborted) draw();
    }, DRAWN_EACH);
  };
  for (const it of [list, round, days]) it.addEventListener("change", soon, { signal: end.signal });
  return () => end.abort();
}
