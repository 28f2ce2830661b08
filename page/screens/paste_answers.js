// @ts-check
// Takes answers that were edited in a spreadsheet and are pasted as rows: all of them, or none if one does not fit.

import { phrases } from "../language.js";
import { readAnswers } from "../parts/answer_rows.js";
import { actions, button, element, newId, notice, saying } from "../parts/dom.js";

/** @typedef {import("../edi/response.js").Answer} Answer */
/**
 * @typedef {{ line: { line: number, quantity: number }, waits: boolean, known: string, bounds: { least: number, most: number },
 *   quantity: import("../parts/field.js").Field, choose: (answer: Answer) => void }} LineForm a line of the form
 */

/** @param {LineForm[]} lines */
export function pasteAnswers(lines) {
  const id = newId("rows");
  const words = { id, rows: 6, spellcheck: "false", autocomplete: "off", "aria-describedby": `${id}-hint ${id}-wrong` };
  const area = /** @type {HTMLTextAreaElement} */ (element("textarea", words));
  const wrong = element("div", { id: `${id}-wrong`, role: "alert" });
  const taken = element("div", { role: "status", tabindex: "-1", class: "verdict" });
  const take = () => {
    const read = readAnswers(area.value, lines.map(knownOf));
    const problems = read.wrong.length || read.answers.length ? read.wrong : [phrases.pasteAnswers.noAnswer];
    area.setAttribute("aria-invalid", String(problems.length > 0));
    wrong.replaceChildren(...(problems.length ? [whatIsWrong(problems)] : []));
    taken.replaceChildren(...(problems.length ? [] : [saying("good", takenInWords(read.answers.length))]));
    if (problems.length) return area.focus();
    for (const { line, answer, quantity } of read.answers) give(lines, line, answer, quantity);
    area.value = "";
    taken.focus({ preventScroll: true });
  };
  return element(
    "details",
    { class: "paste" },
    element("summary", {}, phrases.pasteAnswers.title),
    element("p", { class: "hint", id: `${id}-hint` }, phrases.pasteAnswers.hint),
    element("div", { class: "field" }, element("label", { for: id }, phrases.pasteAnswers.label), area),
    wrong,
    actions(button(phrases.pasteAnswers.take, take)),
    taken,
  );
}

/** @param {LineForm} form */
const knownOf = ({ line, waits, known, bounds }) => ({ line: line.line, ordered: line.quantity, waits, known, ...bounds });

/** @param {string[]} problems */
function whatIsWrong(problems) {
  const list = element("ul", {}, ...problems.map((it) => element("li", {}, it)));
  return notice("bad", element("p", {}, phrases.pasteAnswers.wrong), list);
}

/** @param {number} count */
const takenInWords = (count) => phrases.pasteAnswers.taken(count);

/** @param {LineForm[]} lines @param {number} number @param {Answer} answer @param {string} quantity */
function give(lines, number, answer, quantity) {
  const form = /** @type {LineForm} */ (lines.find((it) => it.line.line === number));
  form.choose(answer);
  form.quantity.value = quantity;
  form.quantity.say("");
}
