// @ts-check
// Signing in, with GLN and key, and again after a rest. The form has names for password managers; it is never submitted by the browser, and
// its method would not put the key into an address either.

import { Broken } from "../hub/client.js";
import { isSafePlace } from "../hub/place.js";
import { isKey, keepSignIn } from "../kept_sign_in.js";
import { phrases } from "../language.js";
import { button, element, heading, saying } from "../parts/dom.js";
import { Field, check, focusFirstWrong } from "../parts/field.js";
import { wrongGln } from "../parts/gln.js";
import { Session } from "../session.js";

/** @typedef {{ gln: Field, key: Field, said: HTMLElement, submit: HTMLElement, number: () => string }} Parts */

/** @param {(session: Session) => void} signedIn @param {string} gln to begin with
 * @param {(() => void) | null} signOut throws away what the tab keeps for this GLN, if it keeps anything */
export function signInScreen(signedIn, gln, signOut) {
  const { title, plain } = phrases.signIn;
  if (!isSafePlace(location)) return { title, content: [heading(title), saying("bad", plain)] };
  const words = { label: "GLN", hint: phrases.signIn.glnHint, value: gln };
  const parts = fieldsOf(new Field({ ...words, name: "username", autocomplete: "username", inputmode: "numeric", maxlength: 20 }));
  const form = formOf(phrases.signIn.title, parts, (session) => signedIn(session));
  form.append(element("p", { class: "hint" }, signOut ? phrases.signIn.left : phrases.signIn.kept));
  if (signOut) form.append(button(phrases.common.signOut, signOut));
  return { title: phrases.signIn.title, content: [form] };
}

/** The same GLN signs in again.
 * @param {Session} session @param {(key: string) => void} unlocked @param {() => void} signOut */
export function lockScreen(session, unlocked, signOut) {
  const words = { label: "GLN", value: session.hub.caller, name: "username", autocomplete: "username" };
  // no password manager can put another one in its place
  const parts = { ...fieldsOf(new Field(words)), number: () => session.hub.caller };
  parts.gln.input.readOnly = true;
  const form = formOf(phrases.signIn.locked, parts, (_, key) => unlocked(key));
  form.querySelector("h1")?.after(element("p", {}, phrases.signIn.wasLocked));
  form.append(element("p", { class: "hint" }, phrases.signIn.instead), button(phrases.common.signOut, signOut));
  return { title: phrases.signIn.locked, content: [form] };
}

/** @param {Field} gln @returns {Parts} */
function fieldsOf(gln) {
  const names = { name: "password", autocomplete: "current-password", type: "password", maxlength: 64 };
  const key = new Field({ label: phrases.signIn.key, hint: phrases.signIn.keyHint, ...names });
  const submit = element("button", { type: "submit", class: "primary wide" }, phrases.signIn.title);
  return { gln, key, submit, said: element("div", { role: "alert" }), number: () => gln.trimmed.replace(/\s/g, "") };
}

/** @param {string} title @param {Parts} parts @param {(session: Session, key: string) => void} signedIn */
function formOf(title, { gln, key, submit, said, number: numberOf }, signedIn) {
  const tell = (/** @type {string} */ kind, /** @type {string} */ text) => said.replaceChildren(saying(kind, text));

  /** @param {Event} event */
  async function signIn(event) {
    event.preventDefault();
    const number = numberOf();
    const rightGln = check(gln, wrongGln(number));
    const rightKey = check(key, isKey(key.value) ? "" : phrases.signIn.wrongKey);
    if (!rightGln || !rightKey) return focusFirstWrong([gln, key]);
    submit.setAttribute("disabled", "");
    said.replaceChildren();
    const typed = key.value;
    const session = await begun(number, typed, tell);
    submit.removeAttribute("disabled");
    // a key that was not denied stays typed, to be tried again
    if (session !== undefined) key.value = "";
    if (!session) return key.input.focus();
    keepSignIn({ gln: number, key: typed, role: session.role });
    signedIn(session, typed);
  }

  const words = { class: "sign-in card", novalidate: true, method: "post", onsubmit: signIn };
  return element("form", words, heading(title), gln.element, key.element, submit, said);
}

/** The session; null if the hub denies it, undefined if no hub answered, which is then told.
 * @param {string} gln @param {string} key @param {(kind: string, text: string) => void} tell */
async function begun(gln, key, tell) {
  try {
    const session = await Session.begin(gln, key);
    if (!session) tell("bad", phrases.signIn.denied);
    return session;
  } catch (why) {
    if (why instanceof Broken) tell("warn", phrases.signIn.noReply);
    else tell("warn", phrases.signIn.notAHub(why instanceof Error ? why.message : String(why)));
    return undefined;
  }
}
