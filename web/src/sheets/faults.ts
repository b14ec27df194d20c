/* What is wrong with a sheet, and where. */

export type SheetName = "projects" | "ballots";

/** What is wrong. `text` is what stands there, `column` the name of its column, `row` another row. */
export type Why =
  | { readonly is: "notUtf8" | "badQuotes" | "moreCells" | "nothingBelow" | "noId" | "emptyBallot" }
  | { readonly is: "noColumn" | "twiceColumn" | "markElsewhere" | "weight"; readonly column: string }
  | { readonly is: "badId" | "badAmount" | "badSelected" | "unknownProject"; readonly text: string }
  | { readonly is: "eitherAmount"; readonly text: string; readonly thousands: string; readonly decimals: string }
  | { readonly is: "repeatedId"; readonly text: string; readonly row: number }
  | { readonly is: "badMark"; readonly text: string; readonly column: string };

/** A fault in a row of a sheet, counted from 1, or of the limit. */
export type Fault = { readonly sheet: SheetName; readonly row: number; readonly why: Why }
  | { readonly sheet: "limit"; readonly why: Why };

/** Of more faults the rest is counted. */
export const MOST_TOLD = 20;
