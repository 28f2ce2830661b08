// @ts-check
// Shows what would be sent, written again whenever it is looked at.

import { phrases } from "../language.js";
import { element } from "./dom.js";
import { oneALine } from "./raw.js";

/** @param {() => string | null} write */
export function preview(write) {
  const shown = element("pre", { class: "raw", tabindex: "0", "aria-label": phrases.preview.title });
  const summary = element("summary", {}, phrases.preview.show);
  const details = /** @type {HTMLDetailsElement} */ (element("details", { class: "raw-details" }, summary, shown));
  const draw = () => {
    const text = details.open ? write() : "";
    shown.textContent = text === null ? phrases.preview.notComplete : oneALine(text);
  };
  details.addEventListener("toggle", draw);
  // what is typed anywhere in the form changes what will be sent
  queueMicrotask(() => ["input", "change", "click"].forEach((it) => details.closest("form")?.addEventListener(it, () => setTimeout(draw))));
  return details;
}
