// @ts-check
// Keeps who is signed in over a reload of the tab: GLN and key are in the tab's session storage until the person signs out, and the key is
// forgotten once nobody has used the tab for ten minutes.

import { isGln } from "./edi/identifiers.js";
import { IDLE } from "./idle.js";
import { dropAll, get, put } from "./tab_store.js";

const NAME = "edihub.sign-in";

/** @typedef {"supplier" | "retailer"} Role */
/** @typedef {{ gln: string, key: string, role: Role, used: number }} SignIn a locked tab has an empty key */

/** Whether a text can be a key.
 * @param {string} key */
export const isKey = (key) => /^[\x21-\x7e]{8,64}$/.test(key);

/** Keeps it, if the browser has a place for it: else a reload signs out.
 * @param {Omit<SignIn, "used">} signIn */
export const keepSignIn = ({ gln, key, role }) => put(NAME, { gln, key, role, used: Date.now() });

/** What is kept of this tab, or null.
 * @returns {SignIn | null} */
export function keptSignIn() {
  const { gln, key, role, used } = get(NAME) ?? {};
  const right = isGln(String(gln)) && (key === "" || isKey(String(key))) && ["supplier", "retailer"].includes(role);
  if (!right) return null;
  const isFresh = Date.now() - used < IDLE;
  return { gln, key: isFresh ? key : "", role, used };
}

/** The tab is in use: its key may be kept for ten more minutes. */
export function keepOn() {
  const kept = keptSignIn();
  if (kept) keepSignIn(kept);
}

/** Forgets the key, but not the GLN. */
export function forgetKey() {
  const kept = keptSignIn();
  if (kept) keepSignIn({ ...kept, key: "" });
}

/** Forgets all of it, and whatever else this tab keeps. */
export const forgetSignIn = () => dropAll();
