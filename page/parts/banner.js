// @ts-check
// Says above every screen how a document is doing whose own screen was left, and what else failed. Each has a place of its own, so that no
// failure replaces a button that sends again.

import { phrases } from "../language.js";
import { againButton, clockTime, pauseInWords, verdictNotice } from "./sending_panel.js";
import { button, element, link, notice, saying } from "./dom.js";

/** @typedef {import("../hub/sending.js").Sending} Sending */

export class Banner {
  /** @param {HTMLElement} place a live region @param {HTMLElement} screen where documents may be shown already */
  constructor(place, screen) {
    this.place = place;
    this.screen = screen;
    this.notices = element("div", {});
    this.failures = element("div", {});
    place.replaceChildren(this.notices, this.failures);
    /** @type {Map<Sending, { element: HTMLElement, drawn: string }>} */
    this.told = new Map();
  }

  clear() {
    this.told.clear();
    this.notices.replaceChildren();
    this.failures.replaceChildren();
  }

  /** @param {Node[]} failures in the place of earlier ones */
  fail(...failures) {
    this.failures.replaceChildren(...failures);
  }

  /** Says of each document that its screen does not show what becomes of it.
   * @param {Sending[]} sendings */
  draw(sendings) {
    for (const it of sendings) {
      const shown = this.screen.querySelector(`[data-sending="${it.facts.id}"]`) !== null;
      if (shown) this.drop(it);
      else if (it.isUnsettled || this.told.has(it)) this.tell(it);
    }
  }

  /** @param {Sending} sending */
  drop(sending) {
    this.told.get(sending)?.element.remove();
    this.told.delete(sending);
  }

  /** @param {Sending} sending */
  dismiss(sending) {
    this.drop(sending);
    this.screen.focus({ preventScroll: true });
  }

  /** @param {Sending} sending */
  tell(sending) {
    const known = this.told.get(sending) ?? { element: element("div", { tabindex: "-1" }), drawn: "" };
    const { state, tries, until } = sending.facts;
    const drawn = [state, tries, until].join();
    this.told.set(sending, known);
    if (!known.element.isConnected) this.notices.append(known.element);
    // what did not change is left alone, and so is the focus in it
    if (known.drawn === drawn) return;
    known.drawn = drawn;
    const focused = known.element.contains(document.activeElement);
    known.element.replaceChildren(...inShort(sending, () => this.dismiss(sending)));
    if (focused) known.element.focus();
  }
}

/** @param {Sending} sending @param {() => void} dismiss @returns {Node[]} */
function inShort(sending, dismiss) {
  const { what, state, sentAt } = sending.facts;
  if (state === "sending" || state === "resending") return [saying("plain", phrases.banner.isBeingSent(what))];
  if (state === "held" || state === "pausing") return [saying("warn", `${what}: ${pauseInWords(sending)}`)];
  if (state === "unanswered") {
    const words = phrases.banner.noReply(what);
    return [notice("warn", element("p", {}, words), againButton(sending))];
  }
  const about = element("p", { class: "lead" }, `${phrases.banner.sentAt(what, clockTime(sentAt))} `, link(phrases.sent.title, "sent"));
  return [about, ...verdictNotice(sending), button(phrases.banner.close, dismiss, { class: "quiet" })];
}
