/* Amounts of money as whole numbers of millionths, which are exact. */

import { formatIn, grouped } from "../words/formats.js";

export const MILLION = 1_000_000n;
const PLACES = 6;

/** The millionths of an amount as a file states it, or undefined where it is no amount. */
export function amountOf(text: string): bigint | undefined {
  const [, whole, fraction = ""] = /^(\d+)(?:[.,](\d+))?$/.exec(text) ?? [];
  const digits = fraction.replace(/0+$/, "");
  if (whole === undefined || digits.length > PLACES) return undefined;
  return BigInt(whole) * MILLION + BigInt(digits.padEnd(PLACES, "0"));
}

/** How an amount is written in a language: whole, or with two to six places. */
export function amountIn(millionths: bigint, language: string): string {
  const whole = millionths / MILLION, rest = millionths % MILLION;
  const told = grouped(whole);
  if (!rest) return told;
  const places = `${rest}`.padStart(PLACES, "0").replace(/0+$/, "").padEnd(2, "0");
  const point = formatIn(language).formatToParts(0.5).find(({ type }) => type === "decimal");
  return `${told}${point?.value ?? "."}${places}`;
}

/** An amount down to hundredths, for one that has no end. */
export const downToHundredths = (millionths: bigint): bigint => millionths - millionths % 10_000n;

function divisor(one: bigint, other: bigint): bigint {
  while (other) [one, other] = [other, one % other];
  return one;
}

/** The largest number of millionths of which all amounts are multiples. */
export const commonPart = (amounts: readonly bigint[]): bigint => amounts.reduce(divisor, 0n) || 1n;

/** The least denominator over which all amounts are whole numbers. */
export const commonDenominator = (amounts: readonly bigint[]): number =>
  Number(MILLION / divisor(MILLION, amounts.reduce(divisor, 0n)));
