// @ts-check
// The summary of a document before it is sent, with the second press that sends it. The focus goes to its heading and not to the button,
// so that another Enter of a scanner does nothing.

import { phrases } from "../language.js";
import { actions, button, element, newId } from "./dom.js";

/** @typedef {import("./dom.js").Child} Child */
/** @typedef {{ lead: Child[], rows?: Child[][] }} SummaryWords */

export class Summary {
  /** @param {string} noun what is sent @param {() => void} send @param {() => void} edit */
  constructor(noun, send, edit) {
    const id = newId("summary");
    this.heading = element("h2", { id, tabindex: "-1" }, phrases.summary.title);
    this.words = element("div", {});
    // the second click of a double click was meant for the button before
    const once = (/** @type {Event} */ event) => /** @type {MouseEvent} */ (event).detail < 2 && send();
    this.element = element(
      "section",
      { class: "summary card", hidden: true, "aria-labelledby": id },
      this.heading,
      this.words,
      element("p", { class: "hint" }, phrases.summary.noTurningBack),
      actions(button(phrases.summary.send(noun), once, { class: "primary" }), button(phrases.summary.change, edit)),
    );
  }

  /** @param {SummaryWords} words */
  show({ lead, rows = [] }) {
    const list = element("ul", {}, ...rows.map((it) => element("li", {}, ...it)));
    this.words.replaceChildren(element("p", { class: "summary-lead" }, ...lead), ...(rows.length ? [list] : []));
    this.element.hidden = false;
    this.heading.focus({ preventScroll: true });
    this.element.scrollIntoView({ block: "center" });
  }

  hide() {
    this.element.hidden = true;
  }
}
