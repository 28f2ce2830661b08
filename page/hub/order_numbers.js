// @ts-check
// Tells orders apart whose numbers differ only in blanks at the end. A status report fills each order number with blanks, so it does not
// show those at the end; the orders in the mailbox have them.

/** @typedef {import("./replies.js").StatusLine} StatusLine */
/** @typedef {{ document: string, lines: { line: number, gtin: string, quantity: number }[] }} KnownOrder */

/** A report's lines, each with the exact number of its order as far as the known orders tell it. If it is certain that there are several
 * orders, but not which line is whose, `unsure` counts them from 1.
 * @param {StatusLine[]} lines in the order of the report
 * @param {KnownOrder[]} known */
export function withExactOrders(lines, known) {
  const sorted = [...known].sort((a, b) => a.document.length - b.document.length);
  const orders = grouped(sorted);
  return alike(lines).flatMap((group) => exactGroup(group, orders.get(group[0].order) ?? []));
}

/** @param {KnownOrder[]} orders */
function grouped(orders) {
  /** @type {Map<string, KnownOrder[]>} */
  const found = new Map();
  for (const it of orders) found.set(it.document.trimEnd(), [...(found.get(it.document.trimEnd()) ?? []), it]);
  return found;
}

// Neighbours with the same number: the report is sorted by order number, so a shorter one comes first.
/** @param {StatusLine[]} lines */
function alike(lines) {
  /** @type {StatusLine[][]} */
  const groups = [];
  for (const line of lines) {
    const last = groups[groups.length - 1];
    if (last?.[0].order === line.order) last.push(line);
    else groups.push([line]);
  }
  return groups;
}

/** @param {StatusLine[]} group @param {KnownOrder[]} orders those of this number, the shortest first */
function exactGroup(group, orders) {
  const named = orders.flatMap(({ document, lines }) => [...lines].sort((a, b) => a.line - b.line).map((it) => ({ ...it, document })));
  const fits = group.every((it, at) => it.line === named[at]?.line && it.gtin === named[at].gtin && it.ordered === named[at].quantity);
  if (fits && named.length === group.length) return group.map((it, at) => ({ ...it, order: named[at].document }));
  let place = 1;
  const places = group.map((it, at) => (at > 0 && it.line <= group[at - 1].line ? (place += 1) : place));
  const isOne = place === 1 && !orders.length;
  return isOne ? group : group.map((it, at) => ({ ...it, unsure: places[at] }));
}
