// @ts-check
// Searches the mailbox for entries: the last one, and orders of which the exact number is wanted.

/** @typedef {import("./session.js").Session} Session */

/** How many entries that are taken are looked through, the newest first. */
export const MOST_TAKEN = 200;

/** The number of the last entry, from one that is known on. The hub lists only what is not taken, so it is searched for by steps that
 * double and then halve.
 * @param {{ entry: (number: number) => Promise<unknown> }} session @param {number} known */
export async function lastEntry(session, known) {
  let step = 1;
  while (await session.entry(known + step)) {
    known += step;
    step *= 2;
  }
  for (step = Math.floor(step / 2); step >= 1; step = Math.floor(step / 2)) {
    if (await session.entry(known + step)) known += step;
  }
  return known;
}

/** Reads the orders of these numbers, as a status report has them, into the session: first those that are not taken, which the list names,
 * then the taken ones until all are found.
 * @param {Session} session
 * @param {Set<string>} numbers
 * @param {() => boolean} areFound */
export async function readOrders(session, numbers, areFound) {
  if (!numbers.size || areFound()) return;
  const { entries } = await session.untaken();
  for (const { number, type, document } of entries) {
    if (type === "ORDERS" && numbers.has(document.trimEnd())) await session.entry(number);
  }
  if (areFound()) return;
  const last = await lastEntry(session, Math.max(0, ...entries.map((it) => it.number)));
  const listed = new Set(entries.map((it) => it.number));
  for (let at = last, left = MOST_TAKEN; at > 0 && left > 0 && !areFound(); at -= 1) {
    if (listed.has(at)) continue;
    await session.entry(at);
    left -= 1;
  }
}
