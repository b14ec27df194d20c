/* Amounts as somebody types them: one that can be read in two ways is refused. */

import { amountOf, MILLION } from "../elections/amounts.js";
import type { Why } from "./faults.js";

const LARGEST = 10n ** 12n * MILLION;

/** Whole numbers that may have a sign between thousands, or three decimals. */
const EITHER = /^([1-9]\d{0,2})([.,])(\d{3})$/;

/** The amount with another number of decimals than three. */
function withDecimals(whole: string, sign: string, decimals: string): string {
  const needed = decimals.replace(/0+$/, "");
  return needed ? `${whole}${sign}${needed.length < 3 ? needed : `${needed}0`}` : whole;
}

/** Why a text is no amount. */
export function amountFault(text: string): Why | undefined {
  const amount = amountOf(text);
  if (amount === undefined || amount > LARGEST) return { is: "badAmount", text };
  const [, whole, sign, decimals] = EITHER.exec(text) ?? [];
  if (whole === undefined) return undefined;
  return { is: "eitherAmount", text, thousands: whole + decimals, decimals: withDecimals(whole, sign, decimals) };
}
