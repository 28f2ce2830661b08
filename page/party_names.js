// @ts-check
// Knows parties by name: a supplier's tab from the orders that it has read, the retailer's from the list of suppliers.

import { detailsOfEntry } from "./articles.js";
import { plannerAtOnce } from "./suppliers/planner.js";

/** @typedef {import("./session.js").Session} Session */

/** The names that this tab knows: `nameOf` a GLN, "" if it is not known, and `byName`, such as `Alpha (4012345500004)` or the GLN alone.
 * A list of suppliers that is not there yet is fetched.
 * @param {Session} session */
export function partyNames(session) {
  const list = session.role === "retailer" ? plannerAtOnce(session).list : null;
  const nameOf = (/** @type {string} */ gln) => (list ? list.nameOf(gln) : nameInOrders(session, gln));
  const byName = (/** @type {string} */ gln) => (nameOf(gln) ? `${nameOf(gln)} (${gln})` : gln);
  return { nameOf, byName };
}

/** @param {Session} session @param {string} gln */
function nameInOrders(session, gln) {
  const parties = [...session.entries.values()].flatMap((it) => detailsOfEntry(it)?.header.parties ?? []);
  return parties.find((it) => it.gln === gln && it.address.length)?.address[0] ?? "";
}
