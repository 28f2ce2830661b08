// @ts-check
// Encodes a text as a Code 128 symbol (ISO/IEC 15417): pairs of digits in code set C, everything else in code set B.

// the widths of bars and spaces of each symbol character, by its value; the last is the stop character
const WIDTHS = (
  "212222 222122 222221 121223 121322 131222 122213 122312 132212 221213 221312 231212 112232 122132 122231 113222 123122 123221 " +
  "223211 221132 221231 213212 223112 312131 311222 321122 321221 312212 322112 322211 212123 212321 232121 111323 131123 131321 " +
  "112313 132113 132311 211313 231113 231311 112133 112331 132131 113123 113321 133121 313121 211331 231131 213113 213311 213131 " +
  "311123 311321 331121 312113 312311 332111 314111 221411 431111 111224 111422 121124 121421 141122 141221 112214 112412 122114 " +
  "122411 142112 142211 241211 221114 413111 241112 134111 111242 121142 121241 114212 124112 124211 411212 421112 421211 212141 " +
  "214121 412121 111143 111341 131141 114113 114311 411113 411311 113141 114131 311141 411131 211412 211214 211232 2331112"
).split(" ");
const TO_C = 99;
const TO_B = 100;
const FNC1 = 102;
const START_B = 104;
const START_C = 105;
const STOP = 106;
const CHECK = 103;
// from this many digits on, code set C is shorter
const FEWEST = 4;

/** How many digits follow from a place on.
 * @param {string} text @param {number} at */
const digitsFrom = (text, at) => /^\d*/.exec(text.slice(at))?.[0].length ?? 0;

/** The values of the symbol characters of a text of printable ASCII, from the start character to the stop character.
 * @param {string} text @param {boolean} [isGs1] whether FNC1 comes first, as in a GS1-128 symbol */
export function symbolValues(text, isGs1 = true) {
  const digits = digitsFrom(text, 0);
  let inC = digits >= FEWEST || (digits === 2 && text.length === 2);
  const values = [inC ? START_C : START_B, ...(isGs1 ? [FNC1] : [])];
  for (let at = 0; at < text.length; ) {
    const run = digitsFrom(text, at);
    const changes = inC ? run < 2 : run >= FEWEST && run % 2 === 0;
    if (changes) {
      inC = !inC;
      values.push(inC ? TO_C : TO_B);
    }
    values.push(inC ? Number(text.slice(at, at + 2)) : text.charCodeAt(at) - 32);
    at += inC ? 2 : 1;
  }
  return [...values, checkValue(values), STOP];
}

/** The value of the check character: each value counts as often as its place says, the start character once.
 * @param {number[]} values */
const checkValue = (values) => values.reduce((sum, value, place) => sum + value * Math.max(1, place), 0) % CHECK;

/** The widths of the bars and spaces of a symbol in modules, beginning with a bar.
 * @param {number[]} values */
export const widthsOf = (values) => values.flatMap((it) => [...WIDTHS[it]].map(Number));
