/* Linear equations, by Gaussian elimination with the largest number of a column first. */

/** A square matrix: row i has its numbers from i * count on. */
export interface Square {
  readonly count: number;
  readonly numbers: Float64Array;
}

export const squareOf = (count: number): Square => ({ count, numbers: new Float64Array(count * count) });

/** The equations of a matrix, as they are solved for any right side. */
export interface Solvable {
  readonly square: Square;
  /** Which row comes into the place of each. */
  readonly order: Uint32Array;
}

/** Takes a matrix apart, in its place. Undefined where it has no inverse. */
export function solvable(square: Square): Solvable | undefined {
  const { count } = square, order = new Uint32Array(count);
  for (let step = 0; step < count; step++) {
    const row = largestBelow(square, step);
    if (!(Math.abs(square.numbers[row * count + step]) > 0)) return undefined;
    order[step] = row;
    exchange(square, step, row);
    for (let below = step + 1; below < count; below++) eliminate(square, step, below);
  }
  return { square, order };
}

/** The row from a place on whose number in that column is the largest. */
function largestBelow({ count, numbers }: Square, step: number): number {
  let found = step;
  for (let row = step + 1; row < count; row++) {
    if (Math.abs(numbers[row * count + step]) > Math.abs(numbers[found * count + step])) found = row;
  }
  return found;
}

function exchange({ count, numbers }: Square, one: number, other: number): void {
  if (one === other) return;
  const kept = numbers.slice(one * count, (one + 1) * count);
  numbers.copyWithin(one * count, other * count, (other + 1) * count);
  numbers.set(kept, other * count);
}

/** Takes so many times a row from one below it that this has nothing in its column. That number is kept there. */
function eliminate({ count, numbers }: Square, step: number, below: number): void {
  const from = step * count, to = below * count, part = numbers[to + step] / numbers[from + step];
  numbers[to + step] = part;
  if (!part) return;
  for (let column = step + 1; column < count; column++) numbers[to + column] -= part * numbers[from + column];
}

/** The solution for a right side. */
export function solved({ square: { count, numbers }, order }: Solvable, right: Float64Array): Float64Array {
  const found = right.slice();
  for (let step = 0; step < count; step++) {
    const row = order[step];
    [found[step], found[row]] = [found[row], found[step]];
  }
  for (let row = 0; row < count; row++) {
    for (let column = 0; column < row; column++) found[row] -= numbers[row * count + column] * found[column];
  }
  for (let row = count - 1; row >= 0; row--) {
    for (let column = row + 1; column < count; column++) found[row] -= numbers[row * count + column] * found[column];
    found[row] /= numbers[row * count + row];
  }
  return found;
}
