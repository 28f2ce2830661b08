// @ts-check
// What a tab keeps for a GLN over a reload: drafts of forms, what was sent, and a list of suppliers. A locked tab keeps it too, without the
// key; it is shown again only after the same GLN has signed in. It is gone when another GLN signs in, when the person signs out or when the
// tab is closed.

import { drop, get, namesUnder, put } from "./tab_store.js";

const PREFIX = "edihub.";

/** @typedef {"draft" | "sent" | "suppliers"} Kind */

/** @type {Kind[]} */
const KINDS = ["draft", "sent", "suppliers"];

/** @param {Kind} kind @param {string} caller @param {string} name */
const keyOf = (kind, caller, name) => `${PREFIX}${kind}.${caller}.${name}`;

/** @param {string} caller @param {string} name */
export const draftOf = (caller, name) => get(keyOf("draft", caller, name));

/** @param {string} caller @param {string} name @param {unknown} content */
export const keepDraft = (caller, name, content) => put(keyOf("draft", caller, name), content);

/** @param {string} caller @param {string} name */
export const dropDraft = (caller, name) => drop(keyOf("draft", caller, name));

/** @param {string} caller */
export const hasDrafts = (caller) => namesUnder(keyOf("draft", caller, "")).length > 0;

/** Keeps what was sent. If there is no room, others that were answered go.
 * @param {string} caller @param {import("./hub/sending.js").Facts} facts @param {string[]} settled the answered ones, oldest first */
export function keepSent(caller, facts, settled) {
  const others = settled.filter((it) => it !== facts.id);
  while (!put(keyOf("sent", caller, facts.id), facts) && others.length) drop(keyOf("sent", caller, others.shift() ?? ""));
}

/** @param {string} caller @returns {import("./hub/sending.js").Facts[]} */
export const sentOf = (caller) => namesUnder(keyOf("sent", caller, "")).map(get).filter((it) => it !== null);

/** Whether the tab keeps anything for this GLN.
 * @param {string} caller */
export const hasWork = (caller) => hasDrafts(caller) || sentOf(caller).length > 0;

const all = () => KINDS.flatMap((it) => namesUnder(`${PREFIX}${it}.`));

/** Keeps a list of suppliers that the planner gave to this tab.
 * @param {string} caller @param {{ file: string, text: string }} list */
export const keepSuppliers = (caller, list) => put(keyOf("suppliers", caller, ""), list);

/** @param {string} caller @returns {{ file: string, text: string } | null} */
export const suppliersOf = (caller) => get(keyOf("suppliers", caller, ""));

/** Forgets what the tab keeps for other GLNs.
 * @param {string} caller */
export function forgetOthers(caller) {
  const own = KINDS.map((it) => `${PREFIX}${it}.${caller}.`);
  all().filter((key) => !own.some((it) => key.startsWith(it))).forEach(drop);
}
