// @ts-check
// Splits the pieces of lines evenly over pallets.

/** The quantity of each line on each pallet. Of each line, and of all lines together, no pallet gets more than one piece more than another,
 * because the pieces that are over go round the pallets from line to line.
 * @param {number[]} quantities of the lines
 * @param {number} count of pallets
 * @returns {number[][]} for each pallet the quantities of the lines */
export function evenSplit(quantities, count) {
  /** @type {number[][]} */
  const shares = Array.from({ length: count }, () => []);
  let next = 0;
  for (const quantity of quantities) {
    const over = quantity % count;
    const each = (quantity - over) / count;
    shares.forEach((share, place) => share.push(each + ((place - next + count) % count < over ? 1 : 0)));
    next = (next + over) % count;
  }
  return shares;
}
