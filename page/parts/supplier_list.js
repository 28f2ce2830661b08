// @ts-check
// Says where the list of suppliers comes from, and takes another one.

import { phrases } from "../language.js";
import { BESIDE } from "../suppliers/list.js";
import { element, notice, saying } from "./dom.js";
import { dropZone } from "./drop_zone.js";

/** @typedef {import("../suppliers/list.js").SupplierList} SupplierList */

const choice = () => ({
  label: phrases.supplierList.choose,
  hint: phrases.supplierList.chooseHint,
  accept: ".csv,.txt",
  multiple: false,
});
const MOST_WRONG = 5;

/** @param {SupplierList} list @returns {{ element: HTMLElement, draw: () => void }} */
export function supplierListPart(list) {
  const said = element("div", { class: "happened", role: "status", tabindex: "-1" });
  const summary = element("summary", {}, phrases.supplierList.useAnother);
  const take = async (/** @type {File[]} */ [file]) => {
    if (!file) return;
    await list.choose(file);
    draw();
    details.open = !list.suppliers.length;
    said.focus({ preventScroll: true });
  };
  const zone = dropZone(choice(), take);
  const details = /** @type {HTMLDetailsElement} */ (element("details", { class: "list", open: !list.file }, summary, zone));
  let drawn = "";
  const draw = () => {
    const state = JSON.stringify([list.file, list.suppliers.length, list.wrong, list.isKept, list.isUnread]);
    if (state === drawn) return;
    drawn = state;
    said.replaceChildren(element("p", { class: "lead" }, inWords(list)), ...warnings(list));
    summary.textContent = list.file ? phrases.supplierList.useAnother : phrases.supplierList.give;
  };
  draw();
  return { element: element("section", {}, said, details), draw };
}

/** @param {SupplierList} list */
function inWords({ suppliers, file, isBeside }) {
  if (!file) return phrases.supplierList.none;
  return isBeside ? phrases.supplierList.besidePage(suppliers.length, file) : phrases.supplierList.inFile(suppliers.length, file);
}

/** @param {SupplierList} list */
function warnings({ wrong, isKept, isUnread }) {
  return [
    ...(isKept ? [] : [saying("warn", phrases.supplierList.unkept)]),
    ...(isUnread ? [saying("warn", phrases.supplierList.unread(BESIDE))] : []),
    ...(wrong.length ? [whatIsWrong(wrong)] : []),
  ];
}

/** @param {string[]} wrong */
function whatIsWrong(wrong) {
  const more = wrong.length - MOST_WRONG;
  const rows = [...wrong.slice(0, MOST_WRONG), ...(more > 0 ? [phrases.supplierList.more(more)] : [])];
  return notice("warn", element("p", {}, phrases.supplierList.leftOut), element("ul", {}, ...rows.map((it) => element("li", {}, it))));
}
