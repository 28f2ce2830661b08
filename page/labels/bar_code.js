// @ts-check
// Draws a GS1-128 symbol as SVG, in millimetres, with its quiet zones.

import { symbolValues, widthsOf } from "./code128.js";

const SVG = "http://www.w3.org/2000/svg";
// modules on each side
const QUIET_ZONE = 10;

/** @param {string} name @param {Record<string, string | number>} attributes @param {...Node} children */
function svgElement(name, attributes, ...children) {
  const made = document.createElementNS(SVG, name);
  for (const [key, value] of Object.entries(attributes)) made.setAttribute(key, String(value));
  made.append(...children);
  return made;
}

/** How many modules wide a symbol is, with its quiet zones.
 * @param {string} text */
export const modulesOf = (text) => widthsOf(symbolValues(text)).reduce((sum, it) => sum + it, 2 * QUIET_ZONE);

/** The bars as a path, a module being one unit wide.
 * @param {string} text */
export function barPath(text) {
  let at = QUIET_ZONE;
  const bars = widthsOf(symbolValues(text)).map((width, place) => {
    const from = at;
    at += width;
    return place % 2 ? "" : `M${from} 0h${width}v1h-${width}z`;
  });
  return bars.join("");
}

/** The picture of a symbol. Those who listen hear the text below it, so the picture says nothing.
 * @param {string} text @param {{ module: number, bar: number }} size width of a module and height of the bars, in millimetres */
export function barCode(text, { module, bar }) {
  const modules = modulesOf(text);
  const measures = { width: `${modules * module}mm`, height: `${bar}mm`, viewBox: `0 0 ${modules} 1`, preserveAspectRatio: "none" };
  const path = svgElement("path", { d: barPath(text), fill: "#000000", "shape-rendering": "crispEdges" });
  return svgElement("svg", { ...measures, class: "bar-code", "aria-hidden": "true", focusable: "false" }, path);
}
