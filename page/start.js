// @ts-check
// Which screen is shown: the part of the address behind `#` names it, and never who is signed in.

import { inWords } from "./hub/answers.js";
import { Broken, Hub, Refused } from "./hub/client.js";
import { isSafePlace } from "./hub/place.js";
import { watchUse } from "./idle.js";
import { hasDrafts, hasWork } from "./kept.js";
import { forgetSignIn, keepOn, keptSignIn } from "./kept_sign_in.js";
import { beginLanguage, chooseLanguage, phrases } from "./language.js";
import { lockTab } from "./lock.js";
import { Banner } from "./parts/banner.js";
import { append, button, element, heading, link, saying } from "./parts/dom.js";
import { languageChoice } from "./parts/language_choice.js";
import { askToLeave } from "./parts/leaving.js";
import { clockTime } from "./parts/sending_panel.js";
import { answerScreen } from "./screens/answer.js";
import { cancelScreen } from "./screens/cancel.js";
import { cancelLinesScreen } from "./screens/cancel_lines.js";
import { despatchScreen } from "./screens/despatch.js";
import { entryScreen } from "./screens/entry.js";
import { explainScreen } from "./screens/explain.js";
import { labelsScreen } from "./screens/labels.js";
import { mailboxScreen } from "./screens/mailbox.js";
import { openLinesScreen } from "./screens/open_lines.js";
import { overviewScreen } from "./screens/overview.js";
import { searchScreen } from "./screens/search.js";
import { sentScreen } from "./screens/sent.js";
import { signInScreen } from "./screens/sign_in.js";
import { statusScreen } from "./screens/status.js";
import { supplierScreen } from "./screens/supplier.js";
import { todayScreen } from "./screens/today.js";
import { uploadScreen } from "./screens/upload.js";
import { Session } from "./session.js";

/** @typedef {{ session: Session, go: (to: string) => void }} Context */
/** @typedef {{ title: string, content: import("./parts/dom.js").Child[], focus?: HTMLElement, leave?: () => void }} Screen */

/** @type {Record<string, Record<string, (context: Context, ...words: string[]) => Promise<Screen>>>} */
const SCREENS = {
  supplier: {
    today: todayScreen,
    mailbox: mailboxScreen,
    entry: entryScreen,
    answer: answerScreen,
    despatch: despatchScreen,
    status: statusScreen,
    sent: sentScreen,
    labels: labelsScreen,
    explain: explainScreen,
  },
  retailer: {
    upload: uploadScreen,
    overview: overviewScreen,
    "open-lines": openLinesScreen,
    search: searchScreen,
    supplier: supplierScreen,
    cancel: cancelScreen,
    "cancel-lines": cancelLinesScreen,
    sent: sentScreen,
    explain: explainScreen,
  },
};
// the menu's item for a screen that is none itself
/** @type {Record<string, string>} */
const BELONGS = {
  entry: "mailbox",
  answer: "mailbox",
  labels: "sent",
  explain: "sent",
  "open-lines": "overview",
  search: "overview",
  "cancel-lines": "supplier",
};
/** @type {Record<string, ("today" | "mailbox" | "despatch" | "status" | "sent" | "upload" | "overview" | "supplier" | "cancel")[]>} */
const MENUS = {
  supplier: ["today", "mailbox", "despatch", "status", "sent"],
  retailer: ["upload", "overview", "supplier", "cancel", "sent"],
};

const main = /** @type {HTMLElement} */ (document.getElementById("main"));
const top = /** @type {HTMLElement} */ (document.getElementById("top"));
const foot = /** @type {HTMLElement} */ (document.getElementById("foot"));
const banner = new Banner(/** @type {HTMLElement} */ (document.getElementById("banner")), main);
// how many documents have no answer, in the menu
const without = element("span", {});

/** @type {Session | null} */
let session = keptSession();
let shown = 0;
// what the screen that is shown does when it is left
let leave = () => {};
let menuItem = "";
// of the screen that is shown
let address = location.href;
/** @type {Promise<boolean> | null} */
let asking = null;

// Who was signed in before the tab was reloaded.
function keptSession() {
  const kept = isSafePlace(location) ? keptSignIn() : null;
  return kept?.key ? new Session(new Hub(kept.gln, kept.key), kept.role) : null;
}

/** Goes to a screen, or loads it again; asks first if typed work is left.
 * @param {string} to */
async function go(to) {
  const here = location.hash === `#${to}`;
  if (!(await mayLeave(here ? phrases.start.reload : phrases.start.leave))) return;
  if (here) show();
  else location.hash = to;
}

const formWithWork = () => /** @type {HTMLElement | null} */ (main.querySelector("[data-typed]"));

/** @param {string} label of the button that leaves */
async function mayLeave(label) {
  const form = formWithWork();
  if (!form) return true;
  const then = form.hasAttribute("data-unkept") ? phrases.start.unkept : phrases.start.kept;
  asking ??= askToLeave(phrases.start.notSentYet(form.dataset.typed ?? ""), then, label).finally(() => (asking = null));
  if (!(await asking)) return false;
  delete form.dataset.typed;
  return true;
}

/** @param {Screen} screen */
function fill(screen) {
  address = location.href;
  leave = screen.leave ?? (() => {});
  document.title = `${screen.title} · edihub`;
  main.replaceChildren();
  append(main, screen.content.filter((it) => it instanceof Node));
  const first = screen.focus ?? /** @type {HTMLElement | null} */ (main.querySelector("h1"));
  first?.focus({ preventScroll: true });
  scrollTo(0, 0);
}

async function show() {
  if (!session) return showSignIn();
  // what the address names is shown once the tab is unlocked
  if (session.hub.isLocked) return;
  shown += 1;
  const now = shown;
  leave();
  banner.fail();
  const [name, ...words] = location.hash.slice(1).split("/");
  const screens = SCREENS[session.role];
  const chosen = Object.hasOwn(screens, name) ? name : MENUS[session.role][0];
  menuItem = BELONGS[chosen] ?? chosen;
  drawTop(menuItem);
  main.setAttribute("aria-busy", "true");
  const context = { session, go };
  const next = await screenOrFailure(() => screens[chosen](context, ...words.map(decodeURIComponent)));
  await session.hub.ready();
  // another screen may have been asked for meanwhile
  if (now === shown) fill(next);
  main.removeAttribute("aria-busy");
  drawSent();
}

/** @param {() => Promise<Screen>} make @returns {Promise<Screen>} */
async function screenOrFailure(make) {
  try {
    return await make();
  } catch (why) {
    const again = button(phrases.common.tryAgain, show, { class: "primary" });
    return { title: phrases.start.noReply, content: [heading(phrases.start.noReply), failure(why), again] };
  }
}

function showSignIn() {
  drawTop("");
  banner.clear();
  const gln = keptSignIn()?.gln ?? "";
  fill(signInScreen(signedIn, gln, gln && hasWork(gln) ? signOut : null));
  const inputs = /** @type {HTMLInputElement[]} */ ([...main.querySelectorAll("input")]);
  inputs.find((it) => !it.value)?.focus();
}

// A form says itself what becomes of what it sent, so it is asked first.
const listen = () => session?.sent.addEventListener("change", () => queueMicrotask(drawSent));

/** @param {Session} begun */
function signedIn(begun) {
  session = begun;
  listen();
  // a screen that the address names is gone to, as after a reload
  const [name] = location.hash.slice(1).split("/");
  go(Object.hasOwn(SCREENS[begun.role], name) ? location.hash.slice(1) : MENUS[begun.role][0]);
}

// The page is loaded again, so that nothing of the session stays in memory; what would be lost is asked for first.
async function signOut() {
  if (!(await mayForget())) return;
  forgetSignIn();
  session = null;
  history.replaceState(null, "", location.pathname);
  location.reload();
}

async function mayForget() {
  const lost = session && loss(session);
  return !lost || askToLeave(...lost, phrases.common.signOut);
}

/** What signing out would lose, and what that means.
 * @param {Session} session @returns {[string, string] | null} */
function loss({ sent, hub }) {
  const [open] = sent.unsettled;
  const typed = formWithWork()?.dataset.typed;
  if (open) return [phrases.start.noReplyYet(open.facts.what), phrases.start.notAgain];
  if (typed) return [phrases.start.notSentYet(typed), phrases.start.typedGone];
  if (sent.next?.facts.kind === "file") return [phrases.start.filesNotSent, phrases.start.chooseAgain];
  if (sent.next) return [phrases.start.notSentYet(sent.next.facts.what), phrases.start.waitingGone];
  return hasDrafts(hub.caller) ? [phrases.start.drafts, phrases.start.draftsGone] : null;
}

function lock() {
  if (!session || session.hub.isLocked) return;
  // what is asked names what was typed
  /** @type {HTMLDialogElement | null} */ (document.querySelector("dialog[open]"))?.close();
  const draw = () => [drawTop(menuItem), drawSent()];
  const left = leave;
  lockTab({ main, session, fill, draw, show, signOut });
  // the screen that is put away is left later
  leave = left;
}

// A page that the browser brings back as it was has what a person saw who has signed out since: it is loaded again then.
/** @param {PageTransitionEvent} event */
function broughtBack({ persisted }) {
  if (!persisted || !session || keptSignIn()?.gln === session.hub.caller) return;
  main.replaceChildren();
  location.reload();
}

/** @param {string} language */
async function changeLanguage(language) {
  if (!(await mayLeave(phrases.start.leave))) return drawTop(menuItem);
  chooseLanguage(language);
  banner.clear();
  show();
}

/** What is around the screen.
 * @param {string} chosen */
function drawTop(chosen) {
  /** @type {HTMLElement} */ (document.querySelector("a.skip")).textContent = phrases.start.skip;
  // a locked tab keeps what was typed as it is
  foot.replaceChildren(...(session?.hub.isLocked ? [] : [languageChoice(changeLanguage)]));
  const brand = element("span", { class: "brand" }, "edihub");
  if (!session || session.hub.isLocked) return top.replaceChildren(element("div", { class: "bar-top" }, brand));
  const items = MENUS[session.role].map((to) =>
    link([phrases.menu[to], to === "sent" ? without : null], to, { "aria-current": to === chosen ? "page" : null }),
  );
  const side = `${phrases.start.sides[session.role]} `;
  const who = element("span", { class: "who" }, side, element("span", { class: "digits" }, session.hub.caller));
  const menu = element("nav", { "aria-label": phrases.start.screens }, ...items);
  top.replaceChildren(element("div", { class: "bar-top" }, brand, menu, who, button(phrases.common.signOut, signOut, { class: "quiet" })));
}

// What was sent from a screen that was left, and how many have no answer.
function drawSent() {
  if (!session) return;
  banner.place.hidden = session.hub.isLocked;
  banner.draw(session.sent.sendings);
  const count = session.sent.unsettled.length;
  without.textContent = count ? ` ${phrases.start.withoutReply(count)}` : "";
}

/** @param {unknown} why */
function failure(why) {
  if (why instanceof Broken) return saying("warn", `${inWords(why.reason)} ${tryAgain(why.wait)}`);
  const denied = why instanceof Refused && why.status === 403;
  if (denied) return saying("bad", phrases.start.denied);
  return saying("bad", phrases.start.wentWrong(why instanceof Error ? why.message : String(why)));
}

/** @param {number} wait milliseconds */
const tryAgain = (wait) => (wait ? phrases.start.tryAfter(clockTime(Date.now() + wait, "medium")) : phrases.start.tryInAMoment);

// Links to screens ask before typed work is left, and load the screen again that is shown.
document.addEventListener("click", (event) => {
  const to = event.target instanceof Element ? event.target.closest("a[href^='#']")?.getAttribute("href")?.slice(1) : null;
  if (!to || to === "main" || event.ctrlKey || event.metaKey || event.shiftKey || event.altKey) return;
  event.preventDefault();
  go(to);
});
addEventListener("hashchange", async (event) => {
  if (location.hash === "#main") {
    // the link that skips the menu is no screen
    history.replaceState(null, "", event.oldURL);
    main.focus();
  } else if (await mayLeave(phrases.start.leave)) show();
  else history.pushState(null, "", address);
});
// what an action of a screen did not expect
addEventListener("unhandledrejection", (event) => banner.fail(failure(event.reason)));
// A browser asks nobody who has not used the page yet, and complains if it is told to.
addEventListener("beforeunload", (event) => {
  const isUsed = navigator.userActivation?.hasBeenActive ?? true;
  if (isUsed && session && (formWithWork() || session.sent.unsettled.length || session.sent.next)) event.preventDefault();
});
addEventListener("pageshow", broughtBack);
watchUse(lock, keepOn);
listen();
beginLanguage();
show();
