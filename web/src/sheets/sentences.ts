/* What is wrong with a sheet, in the page's language. In English examples/sheets.py says the same. */

import { shownName, toldName } from "../files/names.js";
import { grouped } from "../words/formats.js";
import { fill } from "../words/words.js";
import type { Words } from "../words/words.js";
import type { Fault, SheetName, Why } from "./faults.js";

function whyIn(words: Words, why: Why): string {
  switch (why.is) {
    case "notUtf8": return words.sheetNotUtf8;
    case "badQuotes": return words.sheetBadQuotes;
    case "moreCells": return words.sheetMoreCells;
    case "nothingBelow": return words.sheetNothingBelow;
    case "noId": return words.sheetNoId;
    case "emptyBallot": return words.sheetEmptyBallot;
    case "noColumn": return fill(words.sheetNoColumn, { column: toldName(why.column) });
    case "twiceColumn": return fill(words.sheetTwiceColumn, { column: toldName(why.column) });
    case "markElsewhere": return fill(words.sheetMarkElsewhere, { column: toldName(why.column) });
    case "weight": return fill(words.sheetWeight, { column: toldName(why.column) });
    case "badId": return fill(words.sheetBadId, { text: toldName(why.text) });
    case "badAmount": return fill(words.sheetBadAmount, { text: toldName(why.text) });
    case "badSelected": return fill(words.sheetBadSelected, { text: toldName(why.text) });
    case "unknownProject": return fill(words.sheetUnknownProject, { text: toldName(why.text) });
    case "eitherAmount": return fill(words.sheetEitherAmount, why);
    case "repeatedId": return fill(words.sheetRepeatedId, { text: toldName(why.text), row: grouped(why.row) });
    case "badMark": return fill(words.sheetBadMark, { text: toldName(why.text), column: toldName(why.column) });
  }
}

/** A fault: the file, the row and why. */
export function faultIn(words: Words, fault: Fault, names: Readonly<Record<SheetName, string>>): string {
  const text = whyIn(words, fault.why);
  if (fault.sheet === "limit") return text;
  return fill(words.sheetRow, { file: shownName(names[fault.sheet]), row: grouped(fault.row), text });
}
