// @ts-check
// The element strings of a pallet's symbols (GS1 General Specifications): the SSCC, and the content if it is one article.

/** @typedef {{ text: string, readable: string }} ElementString what the bars hold, and the same for people */
/** @typedef {{ gtin: string, count: number }} Content */

// application identifier 37 has at most eight digits
const GREATEST_COUNT = 99_999_999;

/** @param {...[string, string]} fields application identifiers, each with its data @returns {ElementString} */
const joined = (...fields) => ({
  text: fields.map((it) => it.join("")).join(""),
  readable: fields.map(([identifier, data]) => `(${identifier}) ${data}`).join(" "),
});

/** @param {string} sscc */
export const ssccString = (sscc) => joined(["00", sscc]);

/** GTIN and count of what is on the pallet. The count comes last, because its length varies.
 * @param {Content} content */
export const contentString = ({ gtin, count }) => joined(["02", gtin], ["37", String(count)]);

/** What is on a pallet, if it is one article and its count fits; else null.
 * @param {{ gtin: string, quantity: number }[]} lines @returns {Content | null} */
export function contentOf(lines) {
  const count = lines.reduce((sum, it) => sum + it.quantity, 0);
  const isOne = new Set(lines.map((it) => it.gtin)).size === 1;
  return isOne && count > 0 && count <= GREATEST_COUNT ? { gtin: lines[0].gtin, count } : null;
}
