// @ts-check
// Sorts a table by a choice: on a narrow page its headings are not seen.

import { phrases } from "../language.js";
import { element, newId } from "./dom.js";

const LEAST_ROWS = 3;

export class SortChoice {
  /** @param {{ title: string, value?: unknown }[]} columns @param {(place: number, falls: boolean) => void} sort a place of -1 is none */
  constructor(columns, sort) {
    const id = newId("sort");
    const ways = columns.flatMap(({ title, value }, place) => (value ? [false, true].map((falls) => ({ title, place, falls })) : []));
    const options = ways.map(({ title, place, falls }) =>
      element("option", { value: nameOf(place, falls) }, wayInWords(title, falls)),
    );
    const none = element("option", { value: "" }, phrases.sortChoice.asItComes);
    this.select = /** @type {HTMLSelectElement} */ (element("select", { id }, none, ...options));
    this.select.addEventListener("change", () => {
      const { place, falls } = ways[this.select.selectedIndex - 1] ?? { place: -1, falls: false };
      sort(place, falls);
    });
    const label = element("label", { for: id }, phrases.sortChoice.sortBy);
    this.isEmpty = !ways.length;
    this.element = element("div", { class: "sort-choice field no-print" }, label, this.select);
  }

  /** Offers the choice if there are enough rows for one.
   * @param {number} rows */
  offer(rows) {
    this.element.hidden = this.isEmpty || rows < LEAST_ROWS;
  }

  /** Shows how the table is sorted.
   * @param {number} place @param {boolean} falls */
  show(place, falls) {
    this.select.value = nameOf(place, falls);
  }
}

/** @param {number} place @param {boolean} falls */
const nameOf = (place, falls) => (place < 0 ? "" : `${place} ${falls}`);

/** @param {string} title @param {boolean} falls */
const wayInWords = (title, falls) => (falls ? phrases.sortChoice.descending(title) : phrases.sortChoice.ascending(title));
