// @ts-check
// The answer to an order (ORDRSP): each line accepted, refused or changed to a quantity.

import { articlesOf } from "../articles.js";
import { interchangeText } from "../edi/envelope.js";
import { day } from "../edi/dates.js";
import { responseText } from "../edi/response.js";
import { phrases } from "../language.js";
import { articleCell, articleColumn } from "../parts/article.js";
import { actions, button, element, figure, heading, link, newId, saying } from "../parts/dom.js";
import { proposedNumber, wrongNumber } from "../parts/document_number.js";
import { documentNumber, numberInWords } from "../parts/order_number.js";
import { Field, check, focusFirstWrong, wholeNumber } from "../parts/field.js";
import { sendingForm } from "../parts/sending_form.js";
import { Table } from "../parts/table.js";
import { answerSummary } from "./answer_summary.js";
import { linesWithStatus } from "./order.js";
import { pasteAnswers } from "./paste_answers.js";

/** @typedef {import("../edi/response.js").Answer} Answer */
/** @typedef {ReturnType<typeof linesWithStatus>[number]} Line */

const CHOICES = /** @type {Answer[]} */ (["accepted", "refused", "changed"]);

/** A line of the form, of which the answer is chosen. */
class LineAnswer {
  /** @param {Line} line */
  constructor(line) {
    this.line = line;
    const name = newId("answer");
    this.radios = CHOICES.map((it) => radio(name, it));
    const label = phrases.answer.changedQuantity(line.line);
    const field = `answer.changedQuantity/${line.line}`;
    this.quantity = new Field({ label, field, hidden: true, inputmode: "numeric", maxlength: 9, class: "short" });
    const legend = element("legend", { class: "spoken" }, phrases.answer.answerToLine(line.line));
    const words = { class: "choices", "data-field": `answer.answerToLine/${line.line}`, "aria-describedby": this.quantity.wrong.id };
    this.choices = element("fieldset", words, legend, ...this.radios.map((it) => it.element));
    this.choices.addEventListener("change", () => this.offerQuantity());
    this.offerQuantity();
  }

  get waits() {
    return this.line.status?.answer === "W";
  }

  /** What the hub knows of the answer, in words. */
  get known() {
    return phrases.answers[this.line.status?.answer ?? ""] ?? phrases.answer.notKnown;
  }

  /** @returns {Answer | null} */
  get answer() {
    return /** @type {Answer | undefined} */ (this.radios.find((it) => it.input.checked)?.input.value) ?? null;
  }

  /** @param {Answer} answer */
  choose(answer) {
    for (const { input } of this.radios) input.checked = input.value === answer;
    this.offerQuantity();
  }

  /** A quantity is typed for a change alone. */
  offerQuantity() {
    const { quantity } = this;
    quantity.input.disabled = this.answer !== "changed";
    if (quantity.input.disabled) quantity.value = "";
    quantity.say("");
  }

  get isWrong() {
    return this.quantity.isWrong;
  }

  /** Where what is wrong is corrected. */
  get input() {
    return this.quantity.input.disabled ? this.radios[0].input : this.quantity.input;
  }

  /** The quantities that a change may have: what is despatched stays. */
  get bounds() {
    const { despatched = 0, open = 0 } = this.line.status ?? {};
    return { least: despatched, most: despatched + open };
  }

  check() {
    if (!this.waits) return check(this.quantity, phrases.answerRows.isAnswered(this.line.line, this.known));
    if (this.answer !== "changed") return check(this.quantity, "");
    const { least, most } = this.bounds;
    const quantity = wholeNumber(this.quantity.value);
    const right = quantity >= least && quantity <= most;
    return check(this.quantity, right ? "" : phrases.answer.giveANumber(least, most));
  }
}

/** @param {string} name @param {Answer} value */
function radio(name, value) {
  const words = { type: "radio", name, value, "data-field": `answer.choices.${value}` };
  const input = /** @type {HTMLInputElement} */ (element("input", words));
  return { input, element: element("label", { class: "choice" }, input, element("span", {}, phrases.answer.choices[value])) };
}

/** @param {import("../start.js").Context} context @param {string} word the entry's number */
export async function answerScreen(context, word) {
  const entry = await context.session.entry(Number(word));
  if (!entry?.order || !entry.interchange) return { title: phrases.answer.noOrder, content: [heading(phrases.answer.entryIsNoOrder)] };
  const { session } = context;
  const { order, interchange } = entry;
  const answers = linesWithStatus(order, (await session.status()).lines).map((it) => new LineAnswer(it));
  const lines = table(answers, order.document, articlesOf(session));
  const hint = phrases.answer.numberHint;
  const document = new Field({ label: phrases.answer.number, field: "answer.number", hint, value: proposedNumber(), maxlength: 35 });
  const wrong = element("div", { role: "alert" });
  const next = element("div", {});
  const waiting = () => answers.filter((it) => it.waits);
  const title = phrases.answer.answerOrder(numberInWords(order.document)).join("");
  const form = await sendingForm({
    context,
    kind: "document",
    what: () => phrases.answer.what(numberInWords(order.document)),
    noun: phrases.answer.noun,
    draft: `answer/${word}`,
    content: [choicesHint(), tools(waiting()), pasteAnswers(answers), lines, wrong, document.element],
    check: () => checked(waiting(), document, wrong),
    summary: () => answerSummary(order.document, waiting()),
    write: ({ reference, moment }) => {
      const words = { sender: session.hub.caller, recipient: interchange.sender, reference, moment };
      return isComplete(waiting()) ? interchangeText(words, messageOf(order, answers, document.value, moment)) : null;
    },
    settled: ({ outcome, code }) => {
      if (outcome === "refused") return showAtItsPlace(session, code, { order, answers, document });
      next.replaceChildren(nextSteps(Number(word)));
    },
  });
  return {
    title,
    content: [
      element("p", { class: "back" }, link(["‹ ", ...phrases.answer.order(documentNumber(order.document))], `entry/${word}`)),
      heading(...phrases.answer.answerOrder(documentNumber(order.document))),
      ...(waiting().length ? [form] : [saying("plain", phrases.answer.noneWaits), lines]),
      next,
    ],
  };
}

const choicesHint = () => element("p", { class: "hint" }, phrases.answer.hint);

/** @param {LineAnswer[]} waiting */
function tools(waiting) {
  const all = (/** @type {Answer} */ answer) => () => waiting.forEach((it) => it.choose(answer));
  return actions(
    button(phrases.answer.acceptAll(waiting.length), all("accepted"), { class: "accept-all" }),
    button(phrases.answer.refuseAll, all("refused"), { class: "quiet refuse-all" }),
  );
}

/** @param {LineAnswer} it */
const answerInFile = (it) => (it.waits ? it.answer && phrases.rows.written[it.answer] : it.known) ?? "";
/** @param {LineAnswer} it */
const quantityInFile = (it) => (it.waits && it.answer === "changed" ? it.quantity.trimmed : "");

/** @param {LineAnswer[]} answers @param {string} order @param {import("../articles.js").Articles} articles */
function table(answers, order, articles) {
  const article = (/** @type {LineAnswer} */ { line: { gtin, line } }) => articleCell(gtin, articles.of({ gtin, order, line }));
  return new Table({
    caption: phrases.answer.caption,
    kind: "answers",
    rows: answers,
    columns: [
      { title: phrases.common.line, cell: (it) => it.line.line },
      articleColumn((/** @type {LineAnswer} */ it) => it.line.gtin, article),
      { title: phrases.common.ordered, cell: (it) => figure(it.line.quantity), number: true },
      { title: phrases.common.open, cell: (it) => (it.line.status ? figure(it.line.status.open) : "–"), number: true },
      { title: phrases.answer.yourAnswer, kind: "choice-cell", cell: (it) => (it.waits ? it.choices : it.known), csv: answerInFile },
      { title: phrases.answer.changedTo, cell: (it) => (it.waits ? it.quantity.element : ""), csv: quantityInFile },
    ],
  }).element;
}

// Whether the answer can be written, right or not.
/** @param {LineAnswer[]} waiting */
const isComplete = (waiting) =>
  waiting.some((it) => it.answer) && waiting.every((it) => it.answer !== "changed" || !Number.isNaN(wholeNumber(it.quantity.value)));

/** @param {LineAnswer[]} waiting @param {Field} document @param {HTMLElement} wrong */
function checked(waiting, document, wrong) {
  const fields = [...waiting, document];
  const right = waiting.map((it) => it.check()).every(Boolean) && check(document, wrongNumber(document.value));
  const some = waiting.some((it) => it.answer);
  wrong.replaceChildren(...(some ? [] : [saying("bad", phrases.answer.chooseOne)]));
  if (!right) focusFirstWrong(fields);
  else if (!some) waiting[0].radios[0].input.focus();
  return right && some;
}

// Each answered line is named, also if all are accepted or refused: functions 29 and 27 would answer whatever still waits when the message
// arrives, and not the lines that the person saw.
/** @param {import("../edi/order.js").Order} order @param {LineAnswer[]} answers @param {string} document @param {Date} moment */
function messageOf(order, answers, document, moment) {
  const lines = answers.filter((it) => it.waits && it.answer).map((it) => ({
    line: it.line.line,
    gtin: it.line.gtin,
    answer: it.answer ?? "accepted",
    quantity: wholeNumber(it.quantity.value),
  }));
  const { document: number, buyer, supplier } = order;
  return responseText({ document, date: day(moment), order: number, buyer, supplier, function: "4", lines });
}

// What the hub refused, at the field that its code speaks of, by the status as it is now: what is answered or despatched meanwhile tells
// which.
/** @param {import("../session.js").Session} session @param {string} code
 * @param {{ order: import("../edi/order.js").Order, answers: LineAnswer[], document: Field }} form */
async function showAtItsPlace(session, code, { order, answers, document }) {
  const given = answers.filter((it) => it.waits && it.answer);
  const lines = linesWithStatus(order, (await session.status()).lines);
  answers.forEach((it, place) => (it.line = lines[place]));
  const right = given.map((it) => it.check()).every(Boolean);
  const changed = given.filter((it) => it.answer === "changed");
  const ofQuantity = right && ["B08", "M08"].includes(code);
  if (ofQuantity) changed.forEach((it) => it.quantity.say(phrases.answer.wrongQuantities));
  if (code === "M02") document.say(phrases.common.numberNotTaken);
  focusFirstWrong([...given, document]);
}

/** @param {number} entry */
function nextSteps(entry) {
  return actions(
    link(phrases.common.announceADespatch, `despatch/${entry}`, { class: "button primary" }),
    link(phrases.answer.backToTheOrder, `entry/${entry}`, { class: "button" }),
    link(phrases.mailbox.title, "mailbox", { class: "button quiet" }),
  );
}
