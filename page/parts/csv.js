// @ts-check
// Writes rows as CSV for spreadsheets, and reads rows back that were copied from one (RFC 4180).

const END = "\r\n";
// a spreadsheet would take this for a formula
const FORMULA = /^\s*[=+\-@]|^[\t\r\n]/;
// and this for a number, a date or a time, of which it shows something else
const NUMERIC = /^[\d.,][\d\s.,:/eE-]*$/;
const PLAIN = /^(0|[1-9]\d{0,10})$/;
const MARK = "'";

/** A text that a spreadsheet leaves alone, by a mark before it.
 * @param {string} text */
export const asText = (text) => MARK + text;

/** A text with the mark, if a spreadsheet would take it for something else.
 * @param {string} text */
export function harmless(text) {
  const changes = FORMULA.test(text) || text.startsWith(MARK) || (NUMERIC.test(text) && !PLAIN.test(text));
  return changes ? asText(text) : text;
}

/** What separates cells where this language is spoken: `;` if numbers have a decimal comma.
 * @param {string} language */
export const separatorOf = (language) => (new Intl.NumberFormat(language).format(1.5).includes(",") ? ";" : ",");

/** @param {string} cell @param {string} separator */
function quoted(cell, separator) {
  const needs = cell.includes(separator) || /["\r\n]|^\s|\s$/.test(cell);
  return needs ? `"${cell.replaceAll('"', '""')}"` : cell;
}

/** @param {string[][]} rows @param {string} separator */
export const csvText = (rows, separator) => rows.map((row) => row.map((it) => quoted(it, separator)).join(separator) + END).join("");

/** The separator of a text that was copied from a spreadsheet (tabs) or from a file.
 * @param {string} text */
const separatorIn = (text) => ["\t", ";"].find((it) => text.split(/[\r\n]/, 1)[0].includes(it)) ?? ",";

/** Where the columns are that the titles name, in the one language that knows most of them: -1 for one that is not there.
 * @param {string[]} titles in small letters @param {string[][][]} languages the words of each column, language by language */
export function placesOfTitles(titles, languages) {
  const all = languages.map((columns) => columns.map((words) => titles.findIndex((it) => words.includes(it))));
  const known = (/** @type {number[]} */ places) => places.filter((it) => it >= 0).length;
  return all.reduce((best, it) => (known(it) > known(best) ? it : best));
}

/** The rows of a text, each cell without blanks around it and without the mark; empty rows stay, so that rows can be counted.
 * @param {string} text
 * @returns {string[][]} */
export function readRows(text) {
  const plain = text.replace(/^[\ufeff\r\n]+/, "");
  const separator = separatorIn(plain);
  const cell = new RegExp(`(?:"((?:[^"]|"")*)"|([^${separator}\\r\\n]*))(${separator}|\\r\\n|\\r|\\n|$)`, "gy");
  /** @type {string[][]} */
  const rows = [[]];
  for (const [, inQuotes, bare, end] of plain.matchAll(cell)) {
    const content = inQuotes?.replaceAll('""', '"') ?? bare;
    rows[rows.length - 1].push(content.trim().replace(/^'/, ""));
    if (end === "") break;
    if (end !== separator) rows.push([]);
  }
  return rows;
}
