// @ts-check
// Ends a request after some time, or when the person stops it.

/** What the compiler's library does not know of it yet.
 * @type {{ timeout: (milliseconds: number) => AbortSignal, any: (signals: AbortSignal[]) => AbortSignal }} */
const signals = /** @type {any} */ (AbortSignal);

/** @param {number} milliseconds @param {AbortSignal} [stop] by which the person stops it */
export function within(milliseconds, stop) {
  const patience = signals.timeout(milliseconds);
  return stop ? signals.any([patience, stop]) : patience;
}
