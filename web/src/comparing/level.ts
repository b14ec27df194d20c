/* How the supporters of a project share its cost: each pays the same, or all that is left. */

/** What voters with equal ballots have left each, and how many they are. */
export interface Purse {
  readonly left: bigint;
  readonly size: number;
}

/** What those pay together who don't pay all that is left, and how many they are. */
export interface Shared {
  readonly missing: bigint;
  readonly payers: number;
}

/** Shares a cost among purses that aren't empty; undefined where they can't pay for it. */
export function shared(purses: readonly Purse[], cost: bigint): Shared | undefined {
  let missing = cost, payers = 0, all = 0n, rich = purses;
  for (const { left, size } of purses) {
    payers += size;
    all += left * BigInt(size);
  }
  if (all < cost || payers === 0) return undefined;
  for (;;) {
    // Who has less than an equal share of what is missing pays all. Somebody is left, since it is enough.
    const most = ceiling(missing, BigInt(payers)), next: Purse[] = [];
    for (const purse of rich) {
      if (purse.left >= most) {
        next.push(purse);
        continue;
      }
      missing -= purse.left * BigInt(purse.size);
      payers -= purse.size;
    }
    if (next.length === rich.length) return { missing, payers };
    rich = next;
  }
}

export const ceiling = (part: bigint, whole: bigint): bigint => (part + whole - 1n) / whole;

export function divisor(one: bigint, other: bigint): bigint {
  while (other) [one, other] = [other, one % other];
  return one;
}
