// @ts-check
// Writes numbers, dates and plural forms as the language of the page has them.

let tag = "en-GB";
let figures = new Intl.NumberFormat(tag);
/** @type {Map<string, Intl.DateTimeFormat>} made once, because that is slow */
const dates = new Map();

/** Takes the style of a language and a country.
 * @param {string} locale such as `de-AT` */
export function takeStyle(locale) {
  tag = locale;
  figures = new Intl.NumberFormat(tag);
  dates.clear();
}

/** The language and the country whose style is used. */
export const locale = () => tag;

/** @param {number} number */
export const figure = (number) => figures.format(number);

/** The format of dates and times that are given at UTC.
 * @param {"dateStyle" | "timeStyle"} part @param {"long" | "short"} style */
export function dateFormat(part, style) {
  const name = `${part} ${style}`;
  const format = dates.get(name) ?? new Intl.DateTimeFormat(tag, { [part]: style, timeZone: "UTC", calendar: "gregory" });
  dates.set(name, format);
  return format;
}

/** The plural forms of a language: `plural` chooses between the word for one and that for several, `counted` puts the number before it.
 * @param {string} language */
export function pluralsOf(language) {
  const rules = new Intl.PluralRules(language);
  const plural = (/** @type {number} */ number, /** @type {string} */ one, /** @type {string} */ several) =>
    rules.select(number) === "one" ? one : several;
  const counted = (/** @type {number} */ number, /** @type {string} */ one, /** @type {string} */ several) =>
    `${figure(number)} ${plural(number, one, several)}`;
  return { plural, counted };
}
