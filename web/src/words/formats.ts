/* How a language writes numbers: as on the library's page, with a narrow space between thousands and the sign of the
   language before decimals. */

const SPACE = "\u202f";
const formats = new Map<string, Intl.NumberFormat>();

/** A format of numbers, made once: that takes a browser longer than to write a row of a list. */
export function formatIn(language: string, form: Intl.NumberFormatOptions = {}): Intl.NumberFormat {
  const key = JSON.stringify([language, form]), format = formats.get(key) ?? new Intl.NumberFormat(language, form);
  formats.set(key, format);
  return format;
}

/** A whole number. */
export const grouped = (whole: number | bigint | string): string => `${whole}`.replace(/\B(?=(\d{3})+$)/g, SPACE);
