// @ts-check
// Takes what is on which pallet from rows of a spreadsheet that are pasted: all of them, or none if one does not fit.

import { readPalletRows } from "../despatch/pallet_rows.js";
import { phrases } from "../language.js";
import { actions, button, element, newId, notice, saying } from "../parts/dom.js";

/** @typedef {import("../hub/replies.js").StatusLine} StatusLine */
/** @typedef {{ line: StatusLine, quantity: number, pallet: number | string }} Placing */

/** @param {{ lines: () => StatusLine[], pallets: () => string[], place: (rows: Placing[]) => Promise<string> }} form */
export function pastePallets({ lines, pallets, place }) {
  const id = newId("rows");
  const words = { id, rows: 6, spellcheck: "false", autocomplete: "off", "aria-describedby": `${id}-hint ${id}-wrong` };
  const area = /** @type {HTMLTextAreaElement} */ (element("textarea", words));
  const wrong = element("div", { id: `${id}-wrong`, role: "alert" });
  const taken = element("div", { role: "status", tabindex: "-1", class: "verdict" });
  const take = async () => {
    const known = lines();
    const read = readPalletRows(area.value, known, pallets());
    const problems = read.wrong.length || read.rows.length ? read.wrong : [phrases.pastePallets.noQuantity];
    area.setAttribute("aria-invalid", String(problems.length > 0));
    wrong.replaceChildren(...(problems.length ? [whatIsWrong(problems)] : []));
    taken.replaceChildren();
    if (problems.length) return area.focus();
    const said = await place(read.rows.map((it) => ({ ...it, line: known[it.place] })));
    area.value = "";
    taken.replaceChildren(saying("good", said));
    taken.focus({ preventScroll: true });
  };
  return element(
    "details",
    { class: "paste" },
    element("summary", {}, phrases.pastePallets.title),
    element("p", { class: "hint", id: `${id}-hint` }, phrases.pastePallets.hint),
    element("div", { class: "field" }, element("label", { for: id }, phrases.pastePallets.label), area),
    wrong,
    actions(button(phrases.pastePallets.take, take)),
    taken,
  );
}

const MOST_SHOWN = 20;

/** @param {string[]} problems */
function whatIsWrong(problems) {
  const shown = problems.slice(0, MOST_SHOWN).map((it) => element("li", {}, it));
  const more = problems.length > MOST_SHOWN ? [element("li", {}, phrases.pastePallets.more(problems.length - MOST_SHOWN))] : [];
  return notice("bad", element("p", {}, phrases.pastePallets.wrong), element("ul", {}, ...shown, ...more));
}
