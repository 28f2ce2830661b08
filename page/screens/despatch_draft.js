// @ts-check
// What a draft says of the pallets of a despatch. Quantities are in no field while a pallet is collapsed or lists other lines, so they are
// kept apart from the fields.

import { nameOf } from "../despatch/ledger.js";
import { phrases } from "../language.js";
import { orderInWords } from "../parts/order_number.js";

/** @typedef {import("./pallet.js").Pallet} Pallet */
/** @typedef {import("../despatch/ledger.js").Ledger} Ledger */

/** How many pallets a draft has.
 * @param {import("../parts/form_content.js").FormContent} draft */
export function palletsIn(draft) {
  const groups = Object.keys(draft).map((it) => it.split("\n")[0]);
  return new Set(groups.filter((it) => /^pallets\.pallet\/\d+$/.test(it))).size;
}

/** What was typed for each line, pallet by pallet.
 * @param {Pallet[]} pallets */
export const quantitiesOn = (pallets) => `[${pallets.map((it) => it.load.written).join(",")}]`;

/** Puts quantities back on the pallets, and returns in words those that found no line.
 * @param {string} quantities @param {Pallet[]} pallets @param {Ledger} ledger */
export function putOnPallets(quantities, pallets, ledger) {
  const lines = new Map(ledger.lines.map((it) => [nameOf(it), it]));
  /** @type {string[]} */
  const lost = [];
  /** @type {[string, string][][]} */ (JSON.parse(quantities)).forEach((texts, place) => {
    for (const [name, text] of texts) {
      const line = lines.get(name);
      const [order, number] = name.split("\n");
      if (line && pallets[place]) pallets[place].load.set(line, text);
      else lost.push(`${phrases.pallets.pallet(place + 1)}: ${phrases.palletLines.quantityOf(orderInWords({ order }), number)}`);
    }
  });
  return lost;
}
