// @ts-check
// What is wrong with a GLN that was typed, or that an address names.

import { isGln } from "../edi/identifiers.js";
import { phrases } from "../language.js";

/** @param {string} gln */
export const wrongGln = (gln) => (isGln(gln) ? "" : phrases.gln.wrong);
