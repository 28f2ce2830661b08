// @ts-check
// References that are unique without a server's help: the moment in milliseconds and a counter in the tab. Eight and three characters
// until the year 2059, of the fourteen that a reference may have.

const COUNTED = 36 ** 3;
let counter = 0;

/** @param {number} [moment] milliseconds since 1970 */
export function newReference(moment = Date.now()) {
  counter = (counter + 1) % COUNTED;
  return (moment.toString(36) + counter.toString(36).padStart(3, "0")).toUpperCase();
}
