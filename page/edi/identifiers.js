// @ts-check
// GLN, GTIN and SSCC, and the check digit that ends each of them (GS1 General Specifications, standard check digit calculation).

const DIGITS = /^[0-9]+$/;

/** The check digit behind these digits: going left they weigh 3, 1, 3, 1 and so on.
 * @param {string} digits */
export function checkDigit(digits) {
  const sum = [...digits].reverse().reduce((all, digit, place) => all + Number(digit) * (place % 2 ? 1 : 3), 0);
  return String((10 - (sum % 10)) % 10);
}

/** @param {string} text @param {number[]} lengths */
function isIdentifier(text, lengths) {
  return DIGITS.test(text) && lengths.includes(text.length) && checkDigit(text.slice(0, -1)) === text.slice(-1);
}

/** @param {string} text */
export const isGln = (text) => isIdentifier(text, [13]);
/** @param {string} text */
export const isGtin = (text) => isIdentifier(text, [8, 12, 13, 14]);
/** @param {string} text */
export const isSscc = (text) => isIdentifier(text, [18]);

/** A GTIN as the hub shows it, with 14 digits.
 * @param {string} gtin */
export const gtin14 = (gtin) => gtin.padStart(14, "0");

/** The shortest right GTIN of the 14 digits: what stands on the article itself.
 * @param {string} digits */
export function gtinAsPrinted(digits) {
  const short = digits.replace(/^0+/, "");
  const length = [8, 12, 13, 14].find((it) => it >= short.length) ?? 14;
  return digits.slice(14 - length);
}

/** An SSCC of 17 digits gets its check digit; anything else stays.
 * @param {string} text */
export const withCheckDigit = (text) => (/^[0-9]{17}$/.test(text) ? text + checkDigit(text) : text);

/** @param {string} text */
export const isPrefix = (text) => /^[0-9]{4,12}$/.test(text);

/** @param {string} sscc @param {string} prefix */
export const isUnder = (sscc, prefix) => sscc.startsWith(prefix, 1);
