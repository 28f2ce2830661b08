// @ts-check
// Reads an SSCC as people type it and scanners give it, and proposes the next one under a company prefix.

import { isPrefix, isSscc, isUnder, withCheckDigit } from "./identifiers.js";

const EXTENSION_DIGITS = 10;
// the first SSCC under a prefix, if nothing says otherwise
const FIRST_EXTENSION = 3;
const FIRST_SERIAL = 1;

/** The digits of an SSCC from what was typed or scanned: blanks are left out, and the application identifier 00 before 18 digits, as
 * `00`, `(00)` or `]C100`. 17 digits get their check digit. Anything else is returned without blanks.
 * @param {string} text */
export function ssccOf(text) {
  const plain = text.replace(/\s/g, "");
  const scanned = /^(?:\]C1)?(?:00|\(00\))(\d{18})$/.exec(plain);
  return withCheckDigit(scanned ? scanned[1] : plain);
}

/** How many serial numbers a prefix has under each extension digit.
 * @param {string} prefix */
export const serialsUnder = (prefix) => 10 ** (16 - prefix.length);

// The position of an SSCC among all under its prefix: by extension digit, then by serial number.
/** @param {string} sscc @param {string} prefix */
const positionOf = (sscc, prefix) => Number(sscc[0]) * serialsUnder(prefix) + Number(sscc.slice(1 + prefix.length, 17));

/** @param {number} position @param {string} prefix */
function ssccAt(position, prefix) {
  const serials = serialsUnder(prefix);
  const serial = String(position % serials).padStart(16 - prefix.length, "0");
  return withCheckDigit(`${Math.floor(position / serials)}${prefix}${serial}`);
}

/** The next free SSCC under a prefix: after the greatest that is taken, or from the first serial number on if one is given. After the
 * last serial number of an extension digit come those of the next digit, and after 9 comes 0. Without a prefix it is one more than the
 * greatest taken. Empty if none can be proposed.
 * @param {string} prefix
 * @param {string[]} taken
 * @param {number | null} [first] serial number */
export function nextSscc(prefix, taken, first = null) {
  if (!isPrefix(prefix)) return nextWithoutPrefix(taken);
  const positions = taken.filter((it) => isSscc(it) && isUnder(it, prefix)).map((it) => positionOf(it, prefix));
  const serials = serialsUnder(prefix);
  const greatest = positions.reduce((most, it) => Math.max(most, it), -1);
  const extension = greatest < 0 ? FIRST_EXTENSION : Math.floor(greatest / serials);
  const begin = first === null && greatest >= 0 ? greatest + 1 : extension * serials + (first ?? FIRST_SERIAL);
  const isTaken = new Set(positions);
  for (let step = 0; step <= isTaken.size; step += 1) {
    const position = (begin + step) % (EXTENSION_DIGITS * serials);
    if (!isTaken.has(position)) return ssccAt(position, prefix);
  }
  return "";
}

// Without a prefix nobody knows where the serial number begins, so the extension digit stays.
/** @param {string[]} taken */
function nextWithoutPrefix(taken) {
  const last = taken.filter(isSscc).sort().pop();
  if (!last) return "";
  const next = String(BigInt(last.slice(0, 17)) + 1n).padStart(17, "0");
  return next.length > 17 || next[0] !== last[0] ? "" : withCheckDigit(next);
}
