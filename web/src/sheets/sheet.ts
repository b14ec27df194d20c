/* A sheet: its first row, which names the columns, and the rows below it. */

import { firstRow, rowsOf, SEPARATORS, textOf } from "./cells.js";
import type { Fault, SheetName, Why } from "./faults.js";

const LOST = "\ufffd";

export class Sheet {
  readonly head: readonly string[];
  private readonly rows: Generator<string[] | undefined>;
  private readonly isUtf8: boolean;
  private row = 0;

  /** The separator is the first with which the first row has a column that is wanted. */
  constructor(private readonly name: SheetName, bytes: Uint8Array, private readonly faults: Fault[],
      isWanted: (column: string) => boolean) {
    const { text, isUtf8 } = textOf(bytes);
    const separator = SEPARATORS.find(each => firstRow(text, each).some(isWanted)) ?? ",";
    this.isUtf8 = isUtf8;
    this.head = firstRow(text, separator);
    this.rows = rowsOf(text, separator);
  }

  tell(why: Why, row = this.row): void {
    this.faults.push({ sheet: this.name, row, why });
  }

  /** Goes on to the first row. Whether `columns`, which are in it, are there once, and `needed` are among them. */
  hasColumns(columns: readonly string[], needed: readonly string[]): boolean {
    const cells = this.rows.next();
    this.row = 1;
    const known = new Set(columns), missing = needed.find(each => !known.has(each));
    const twice = columns.find(each => !known.delete(each));
    const why = this.wrongCells(cells.done ? [] : cells.value)
      ?? (missing === undefined ? undefined : { is: "noColumn" as const, column: missing })
      ?? (twice === undefined ? undefined : { is: "twiceColumn" as const, column: twice });
    if (why) this.tell(why);
    return !why;
  }

  /** Has each row taken, with a cell for each column; `take` says what is wrong. Whether all rows were read. */
  read(take: (cells: readonly string[], row: number) => Why | undefined): boolean {
    let isEmpty = true;
    for (const cells of this.rows) {
      this.row++;
      const other = cells && take(this.head.map((_, at) => cells[at] ?? ""), this.row);
      const why = this.wrongCells(cells) ?? other;
      if (why) this.tell(why);
      if (!cells) return false;
      isEmpty = isEmpty && isBlank(cells);
    }
    if (isEmpty) this.tell({ is: "nothingBelow" }, 1);
    return true;
  }

  /** What is wrong with a row, whatever it is about. */
  private wrongCells(cells: readonly string[] | undefined): Why | undefined {
    if (!cells) return { is: "badQuotes" };
    if (!this.isUtf8 && cells.some(cell => cell.includes(LOST))) return { is: "notUtf8" };
    return isBlank(cells.slice(this.head.length)) ? undefined : { is: "moreCells" };
  }
}

export const isBlank = (cells: readonly string[]): boolean => cells.every(cell => !cell);
