// @ts-check
// Reads the answers to an order's lines from rows of a spreadsheet: line number, answer and quantity.

import { ALL_PHRASES, phrases } from "../language.js";
import { placesOfTitles, readRows } from "./csv.js";
import { wholeNumber } from "./field.js";

/** @typedef {import("../edi/response.js").Answer} Answer */
/** @typedef {{ line: number, ordered: number, waits: boolean, known: string, least: number, most: number }} KnownLine */
/** @typedef {{ line: number, answer: Answer, quantity: string }} AnswerRow */

/** @type {Record<string, Answer>} */
const WORDS = {};
for (const { rows } of ALL_PHRASES) {
  for (const [answer, words] of Object.entries(rows.answers)) words.forEach((it) => (WORDS[it] = /** @type {Answer} */ (answer)));
}
// the titles that name the columns, and where these are in rows without titles: alone, or as the page writes them
const TITLES = ALL_PHRASES.map(({ rows }) => [rows.line, rows.answer, rows.changedTo]);
const ALONE = [0, 1, 2];
const AS_WRITTEN = [0, 4, 5];

/** The answers that the rows give, and what is wrong with each row that does not fit. A row without an answer gives none.
 * @param {string} text @param {KnownLine[]} lines
 * @returns {{ answers: AnswerRow[], wrong: string[] }} */
export function readAnswers(text, lines) {
  const rows = readRows(text);
  const titles = rows[0].map((it) => it.toLowerCase());
  const named = placesOfTitles(titles, TITLES);
  const hasTitles = named[0] >= 0;
  if (hasTitles && named.includes(-1)) return { answers: [], wrong: [phrases.answerRows.nameTheColumns] };
  const places = hasTitles ? named : titles.length > ALONE.length ? AS_WRITTEN : ALONE;
  /** @type {AnswerRow[]} */
  const answers = [];
  /** @type {string[]} */
  const wrong = [];
  const seen = new Set();
  rows.forEach((cells, at) => {
    if ((hasTitles && at === 0) || cells.every((it) => it === "")) return;
    const [line, word, quantity] = places.map((it) => cells[it] ?? "");
    const read = seen.has(line) ? phrases.answerRows.twice(line) : readRow({ line, word, quantity }, lines);
    seen.add(line);
    if (typeof read === "string") wrong.push(phrases.common.row(at + 1, read));
    else if (read) answers.push(read);
  });
  return { answers, wrong };
}

/** The answer of a row, null if it gives none, or what is wrong with it.
 * @param {{ line: string, word: string, quantity: string }} row @param {KnownLine[]} lines
 * @returns {AnswerRow | string | null} */
function readRow({ line, word, quantity }, lines) {
  const known = lines.find((it) => it.line === wholeNumber(line));
  if (Number.isNaN(wholeNumber(line))) return line ? phrases.common.notALineNumber(line) : phrases.answerRows.lineMissing;
  if (!known) return phrases.answerRows.noLine(line);
  const answer = word ? WORDS[word.toLowerCase()] : "changed";
  if (!known.waits) return isAsKnown(known, word, quantity) ? null : phrases.answerRows.isAnswered(line, known.known);
  if (!word && !quantity) return null;
  if (!answer) return phrases.answerRows.notAnAnswer(word, line);
  const wrong = wrongQuantity(known, answer, quantity);
  return wrong ? phrases.answerRows.ofLine(line, wrong) : { line: known.line, answer, quantity: answer === "changed" ? quantity : "" };
}

/** Whether a row says what the page wrote of a line that does not wait, in any language.
 * @param {KnownLine} line @param {string} word @param {string} quantity */
function isAsKnown({ known }, word, quantity) {
  const letters = lettersOf(known);
  return quantity === "" && (word === "" || lettersOf(word).some((it) => letters.includes(it)));
}

/** The letters of the answers that a word names in some language.
 * @param {string} word */
function lettersOf(word) {
  const isWord = (/** @type {string} */ it) => it.toLowerCase() === word.toLowerCase();
  return ALL_PHRASES.flatMap(({ answers }) => Object.keys(answers).filter((it) => isWord(answers[it])));
}

/** @param {KnownLine} line @param {Answer} answer @param {string} text */
function wrongQuantity({ ordered, least, most }, answer, text) {
  const quantity = wholeNumber(text);
  const isWithin = quantity >= least && quantity <= most;
  if (answer === "changed") return isWithin ? "" : phrases.answerRows.giveANumber(least, most);
  const whole = answer === "accepted" ? ordered : 0;
  return text === "" || quantity === whole ? "" : phrases.answerRows.withQuantity(phrases.rows.written[answer], text);
}
