// @ts-check
// A pallet's label: texts above, then the symbol of its content if it is one article, and the SSCC at the bottom.

import { phrases } from "../language.js";
import { element, figure } from "../parts/dom.js";
import { barCode } from "./bar_code.js";
import { contentOf, contentString, ssccString } from "./element_strings.js";
import { fits } from "./sizes.js";

/** @typedef {import("../edi/despatch.js").DespatchUnit} DespatchUnit */
/** @typedef {import("./sizes.js").Size} Size */
/** @typedef {{ unit: DespatchUnit, name: string, from: string, to: string, despatch: string }} Words */

/** @param {import("./element_strings.js").ElementString} it @param {Size} size */
const symbol = (it, size) =>
  element("div", { class: "symbol" }, barCode(it.text, size), element("p", { class: "readable" }, it.readable));

/** @param {string} term @param {string} text */
const fact = (term, text) => element("div", {}, element("dt", {}, term), element("dd", {}, text));

/** @param {Words} words @param {Size} size @param {import("../articles.js").Articles} articles @param {boolean} isCopy */
export function label({ unit, name, from, to, despatch }, size, articles, isCopy) {
  const content = contentOf(unit.lines);
  const ofContent = content && contentString(content);
  const article = content && articles.of({ ...unit.lines[0], gtin: content.gtin });
  const pieces = unit.lines.reduce((sum, it) => sum + it.quantity, 0);
  const count = new Set(unit.lines.map((it) => it.gtin)).size;
  const what = content ? [fact("CONTENT", content.gtin), fact("COUNT", figure(content.count))] : [];
  const several = content ? [] : [fact(phrases.label.content, phrases.label.several(count, pieces))];
  const named = article ? [fact(phrases.label.article, [article.description, article.number].filter(Boolean).join(", "))] : [];
  const parties = element("div", { class: "label-parties" }, party(phrases.common.from, from), party(phrases.common.to, to));
  const facts = [fact("SSCC", unit.sscc), ...what, ...several, ...named, fact(phrases.label.despatch, despatch)];
  return element(
    "section",
    { class: isCopy ? "label copy" : "label", "data-size": size.name, "aria-label": name },
    element("div", { class: "label-texts" }, parties, element("dl", { class: "label-facts" }, ...facts)),
    ofContent && fits(ofContent.text, size) ? symbol(ofContent, size) : null,
    symbol(ssccString(unit.sscc), size),
  );
}

/** @param {string} term @param {string} text */
const party = (term, text) => element("div", {}, element("strong", {}, term), element("p", {}, text));
