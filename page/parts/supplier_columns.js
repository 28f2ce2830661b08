// @ts-check
// The columns that name a supplier: the name, which leads to its status, and the GLN.

import { phrases } from "../language.js";
import { link } from "./dom.js";

/** @template {{ gln: string }} Row
 * @param {(row: Row) => string} nameOf
 * @returns {import("./table.js").Column<Row>[]} */
export const supplierColumns = (nameOf) => [
  { title: phrases.common.supplier, cell: (it) => link(nameOf(it) || it.gln, `supplier/${it.gln}`), value: (it) => nameOf(it) || it.gln },
  { title: "GLN", cell: ({ gln }) => gln, value: ({ gln }) => gln, kind: "digits" },
];
