/* Linear programmes of few numbers, solved exactly: by the simplex method, each row in whole numbers that have no common
   divisor. */

/** A row: its terms come to no more than a sum of at least 0, or to just that. */
export interface Row {
  readonly terms: readonly (readonly [number, bigint])[];
  readonly sum: bigint;
  readonly isEqual?: boolean;
}

/** So often in turn nothing is gained until the first of all columns is taken in the place of the best one. */
const PATIENCE = 10;

const size = (number: bigint): bigint => number < 0n ? -number : number;

/** Takes what all numbers have in common out of them. */
function reduce(line: bigint[]): void {
  let part = 0n;
  for (const number of line) {
    let rest = size(number);
    while (rest) [part, rest] = [rest, part % rest];
    if (part === 1n) return;
  }
  for (let at = 0; part && at < line.length; at++) line[at] /= part;
}

/**
 * The rows with a column of each row's own, which takes up what it lacks of its sum; then a column for how many times as great
 * the line is, and the sums. Of the variables, all of which are at least 0, one is to be as great as can be.
 */
export class Tableau {
  private readonly lines: bigint[][];
  private readonly basis: number[];
  /** What is to be 0: what rows lack that have to come to their sums. And what is to be great. */
  private readonly lack: bigint[];
  private readonly aim: bigint[];
  private readonly scale: number;
  private readonly sum: number;

  constructor(private readonly variables: number, private readonly rows: readonly Row[], aim: number) {
    [this.scale, this.sum] = [variables + rows.length, variables + rows.length + 1];
    this.basis = rows.map((_, at) => variables + at);
    this.lines = rows.map(({ terms, sum }, at) => {
      const line = this.empty();
      for (const [column, factor] of terms) line[column] += factor;
      [line[variables + at], line[this.sum]] = [1n, sum];
      return line;
    });
    [this.lack, this.aim] = [this.empty(), this.empty()];
    [this.lack[this.scale], this.aim[this.scale], this.aim[aim]] = [1n, 1n, -1n];
    rows.forEach(({ isEqual }, at) => {
      if (!isEqual) return;
      this.lines[at].forEach((number, column) => { this.lack[column] -= number; });
      this.lack[variables + at] = 0n;
    });
  }

  private empty(): bigint[] {
    return new Array<bigint>(this.sum + 1).fill(0n);
  }

  /** Solves it, and says how many steps were made. Whether the rows can hold. */
  *solve(): Generator<number, boolean> {
    const steps = yield* this.improve(this.lack, 0);
    if (this.lack[this.sum] < 0n) return false;
    this.basis.forEach((column, at) => {
      const other = this.isOwn(column) ? this.columns().find(each => this.lines[at][each]) : undefined;
      if (other !== undefined) this.turn(at, other);
    });
    yield* this.improve(this.aim, steps);
    return true;
  }

  /** Whether a column is the own one of a row that has to come to its sum. */
  private isOwn(column: number): boolean {
    return column >= this.variables && this.rows[column - this.variables].isEqual === true;
  }

  private columns(): number[] {
    return Array.from({ length: this.scale }, (_, column) => column).filter(column => !this.isOwn(column));
  }

  private *improve(goal: bigint[], done: number): Generator<number, number> {
    const columns = this.columns();
    let steps = done, idle = 0;
    for (;;) {
      const better = columns.filter(column => goal[column] < 0n);
      if (!better.length) return steps;
      const best = better.reduce((one, other) => goal[other] < goal[one] ? other : one);
      const column = idle < PATIENCE ? best : better[0], at = this.leaving(column);
      if (at === undefined) return steps;
      idle = this.lines[at][this.sum] ? 0 : idle + 1;
      this.turn(at, column);
      yield ++steps;
    }
  }

  /** The row that first comes to its bound where a column grows; of several that of the first variable. */
  private leaving(column: number): number | undefined {
    let found: number | undefined;
    this.lines.forEach((line, at) => {
      if (line[column] <= 0n) return;
      const best = found === undefined ? undefined : this.lines[found];
      const less = best ? line[this.sum] * best[column] - best[this.sum] * line[column] : -1n;
      if (less < 0n || less === 0n && this.basis[at] < this.basis[found!]) found = at;
    });
    return found;
  }

  /** Makes a column the one that a row tells. */
  private turn(at: number, column: number): void {
    const row = this.lines[at];
    if (row[column] < 0n) row.forEach((number, place) => { row[place] = -number; });
    for (const line of [...this.lines, this.lack, this.aim]) {
      if (line !== row && line[column]) this.clear(line, row, column);
    }
    this.basis[at] = column;
  }

  /** Takes so many times a row from a line that this has nothing in a column. */
  private clear(line: bigint[], row: bigint[], column: number): void {
    const factor = line[column], part = row[column];
    for (let at = 0; at < line.length; at++) {
      if (line[at]) line[at] *= part;
      if (row[at]) line[at] -= row[at] * factor;
    }
    reduce(line);
  }

  /** The values of the variables, each as a numerator and a denominator. */
  values(): [bigint, bigint][] {
    const found = Array.from({ length: this.variables }, (): [bigint, bigint] => [0n, 1n]);
    this.basis.forEach((column, at) => {
      if (column < this.variables) found[column] = [this.lines[at][this.sum], this.lines[at][column]];
    });
    return found;
  }

  /** How often each row counts in the sum that says how great the variable can be, or why the rows can't hold; and that sum's
      own scale. */
  multipliers(): { each: bigint[]; scale: bigint } {
    const holds = this.lack[this.sum] >= 0n, line = holds ? this.aim : this.lack, scale = line[this.scale];
    const each = this.rows.map(({ isEqual }, at) => line[this.variables + at] - (isEqual && !holds ? scale : 0n));
    return { each, scale };
  }
}
