// @ts-check
// Locks the tab: the key is forgotten, and what was typed is put away until the same GLN signs in again.

import { forgetKey } from "./kept_sign_in.js";
import { lockScreen } from "./screens/sign_in.js";

/** @typedef {{ main: HTMLElement, session: import("./session.js").Session, fill: (screen: import("./start.js").Screen) => void,
 *   draw: () => void, show: () => void, signOut: () => void }} Tab */

/** @param {Tab} tab */
export function lockTab({ main, session, fill, draw, show, signOut }) {
  session.hub.lock();
  forgetKey();
  const [title, address, focused, scrolled] = [document.title, location.hash, document.activeElement, scrollY];
  const content = [...main.childNodes];
  const unlocked = (/** @type {string} */ key) => {
    main.replaceChildren(...content);
    document.title = title;
    scrollTo(0, scrolled);
    const isThere = focused instanceof HTMLElement && focused !== document.body && focused.isConnected;
    (isThere ? focused : /** @type {HTMLElement | null} */ (main.querySelector("h1")))?.focus({ preventScroll: true });
    // what waited for the key goes on
    session.hub.unlock(key);
    draw();
    // the address may have been changed meanwhile
    if (location.hash !== address) show();
  };
  fill(lockScreen(session, unlocked, signOut));
  draw();
  /** @type {HTMLElement | null} */ (main.querySelector("input[type=password]"))?.focus();
}
