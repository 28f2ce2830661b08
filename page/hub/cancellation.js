// @ts-check
// A cancellation as the hub takes it: five lines, each ended by a line feed.

/** @param {{ supplier: string, reference: string, order: string, line: number, quantity: number }} cancellation */
export const cancellationText = ({ supplier, reference, order, line, quantity }) =>
  [supplier, reference, order, line, quantity].map((it) => `${it}\n`).join("");
