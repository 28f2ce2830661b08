// @ts-check
// What became of an order line, as a bar: each part as wide as its share of what was ordered. The stylesheet draws it, from where each part
// ends, with a gap between parts: one element for a bar, so that a thousand of them are drawn at once.

import { phrases } from "../language.js";
import { element } from "./dom.js";

// the parts of a line, in the order of the bar
const PARTS = /** @type {const} */ (["despatched", "open", "refused", "cancelled"]);

/** @param {import("../hub/replies.js").StatusLine} line */
export function bar(line) {
  const said = PARTS.filter((it) => line[it]).map((it) => phrases.bar.parts[it](line[it]));
  const drawn = element("span", { class: "bar", role: "img", "aria-label": phrases.bar.whole(line.ordered, said.join(", ")) });
  let end = 0;
  for (const part of PARTS) {
    end += line[part];
    drawn.style.setProperty(`--end-of-${part}`, placeOf(end / line.ordered));
  }
  return drawn;
}

// At an end of the bar the gap is outside.
/** @param {number} share */
const placeOf = (share) => (share <= 0 ? "-1px" : share >= 1 ? "calc(100% + 1px)" : `${share * 100}%`);

export function legend() {
  const swatch = (/** @type {string} */ part) => element("span", { class: `swatch ${part}`, "aria-hidden": "true" });
  const items = PARTS.map((it) => element("li", {}, swatch(it), phrases.bar.names[it]));
  return element("ul", { class: "legend", "aria-label": phrases.bar.colours }, ...items);
}
