// @ts-check
// The sizes of pallet labels. A module and the bars are at least as large as the GS1 General Specifications ask for on logistic units
// (0.495 mm and 31.75 mm), and a module is a whole number of dots of a label printer with 8 dots to the millimetre.

import { modulesOf } from "./bar_code.js";

/** @typedef {{ name: "A6" | "A5", width: number, module: number, bar: number }} Size in millimetres */

/** @type {Size[]} */
export const SIZES = [
  { name: "A6", width: 105, module: 0.5, bar: 32 },
  { name: "A5", width: 148, module: 0.625, bar: 40 },
];

/** Whether a symbol with its quiet zones is no wider than the label.
 * @param {string} text @param {Size} size */
export const fits = (text, { width, module }) => modulesOf(text) * module <= width;
