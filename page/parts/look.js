// @ts-check
// Asks the hub for what is good to know before something is sent. It need not answer: nobody waits for it longer than a few seconds.

import { Broken, Refused } from "../hub/client.js";

// milliseconds
const PATIENCE = 3_000;

/** Waits until this was asked and answered, or no longer.
 * @param {() => Promise<void>} ask */
export async function look(ask) {
  const late = new Promise((done) => setTimeout(done, PATIENCE));
  await Promise.race([ask().catch(passOver), late]);
}

// A hub that does not answer, or does not know what it is asked for, stops nobody.
/** @param {unknown} why */
function passOver(why) {
  if (!(why instanceof Broken || why instanceof Refused)) throw why;
}
