/* Tables as comma-separated values, for spreadsheets. */

/** What a spreadsheet would take for a formula: also behind a `;`, at which one of another language begins a cell. */
const FORMULA = /(^|;["\s]*)(?=[=+\-@＝＋－＠])|^(?=[\t\r\n])/g;

/** A field in quotes where it has to be, and with an apostrophe ahead of what would be a formula. */
function fieldOf(text: string): string {
  const safe = text.replace(FORMULA, "$1'");
  return /[",;\r\n]/.test(safe) ? `"${safe.replace(/"/g, '""')}"` : safe;
}

export const csvOf = (rows: readonly (readonly string[])[]): string =>
  rows.map(row => `${row.map(fieldOf).join(",")}\r\n`).join("");
