// @ts-check
// A table with a filter of its own.

import { Filter } from "./filter.js";
import { Table } from "./table.js";

/** @template Row */
export class FilteredTable {
  /** @param {ConstructorParameters<typeof Table<Row>>[0]} table
   * @param {Omit<ConstructorParameters<typeof Filter<Row>>[0], "changed">} filter */
  constructor(table, filter) {
    this.rows = table.rows;
    this.filter = new Filter({ ...filter, changed: () => this.draw() });
    this.table = new Table({ ...table, rows: this.filter.of(this.rows) });
  }

  draw() {
    this.table.show(this.filter.of(this.rows));
  }

  /** Shows these rows in the place of others, filtered and sorted as it is.
   * @param {Row[]} rows */
  show(rows) {
    this.rows = rows;
    this.table.showAgain(this.filter.of(rows));
  }
}
