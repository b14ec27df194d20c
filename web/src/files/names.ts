/* How the page shows what others wrote: names of files, lines of the program, records of a file. */

const LONGEST_NAME = 120;
export const LONGEST_LINE = 300;
/**
 * Characters that can't be seen as themselves: controls, marks of format, spaces other than U+0020, ends of lines, code
 * points that are private or have no character, what is ignored where it isn't known, and blanks.
 */
const HIDDEN = /(?! )(?:[\p{C}\p{Z}\p{Default_Ignorable_Code_Point}\u2800\ufffc]|\u{16fe4}|\u{1d159})/gu;
const NO_JOIN = "\u200c", JOIN = "\u200d";
/** Signs of the scripts of India, and of their neighbours, by which a letter sounds no vowel. */
const VIRAMAS = "\u094d\u09cd\u0a4d\u0acd\u0b4d\u0bcd\u0c4d\u0ccd\u0d4d\u0dca\u1039\u17d2";
/** Arabic letters, and those that aren't joined with the next. */
const ARABIC = /(?=\p{L})[\u0620-\u06d3]/u;
const UNJOINED =
  /[\u0621-\u0625\u0627\u0629\u062f-\u0632\u0648\u0671-\u0677\u0688-\u0699\u06c0-\u06cb\u06cd\u06cf\u06d2\u06d3]/u;
const LETTER = /\p{L}/u, EMOJI = /\p{Emoji_Presentation}/u;
/** Letters that are written from right to left. */
const FROM_THE_RIGHT = /[\u0590-\u08ff\ufb1d-\ufdff\ufe70-\ufefc\u{10800}-\u{10fff}\u{1e800}-\u{1efff}]/u;
const ISOLATE = "\u2068", END_OF_ISOLATE = "\u2069";

/** Whether a character is a joiner that belongs to what stands before and after it. */
function isSpelling(before: string, character: string, after: string): boolean {
  const isConjoined = before !== "" && VIRAMAS.includes(before) && LETTER.test(after);
  const isCursive = ARABIC.test(before) && !UNJOINED.test(before) && ARABIC.test(after);
  if (character === NO_JOIN) return isConjoined || isCursive;
  return character === JOIN && (isConjoined || (EMOJI.test(before) && EMOJI.test(after)));
}

const numbered = (character: string): string => `\\u{${character.codePointAt(0)!.toString(16)}}`;

/** A text with something in the place of each hidden character, but for joiners that belong to the spelling. */
function withoutHidden(text: string, instead: (character: string) => string): string {
  return text.replace(HIDDEN, (character: string, at: number) => {
    const after = String.fromCodePoint(text.codePointAt(at + character.length) ?? 0);
    const before = [...text.slice(Math.max(0, at - 2), at)].pop() ?? "";
    return isSpelling(before, character, after) ? character : instead(character);
  });
}

/**
 * A text with each hidden character as its number, as `\u{202e}`, like the names on the library's page. Characters of
 * `kept` stay as they are.
 */
export const visible = (text: string, kept = ""): string =>
  withoutHidden(text, character => kept.includes(character) ? character : numbered(character));

/** A text with U+FFFD for each hidden character but the ends of lines. */
export const seen = (text: string): string =>
  text.replace(HIDDEN, character => character === "\n" ? character : "\ufffd");

/** A text of at most so many characters: the text itself, or its front and an ellipsis. */
export function shortened(text: string, most: number): string {
  const front = [...text.slice(0, 2 * most + 2)];
  return front.length > most ? `${front.slice(0, most).join("")}…` : text;
}

/** A name as it is shown. A long one keeps its end, by which files are told apart. */
export function shownName(name: string): string {
  const letters = [...visible(name)];
  if (letters.length <= LONGEST_NAME) return letters.join("");
  const half = LONGEST_NAME / 2;
  return `${letters.slice(0, half).join("")}…${letters.slice(-half).join("")}`;
}

/** A name inside a sentence, whose order it leaves alone. */
export function toldName(name: string): string {
  const shown = shownName(name);
  return FROM_THE_RIGHT.test(shown) ? `${ISOLATE}${shown}${END_OF_ISOLATE}` : shown;
}

/** What some system doesn't have in the names of files, or not in front or at the end. */
const NOT_IN_NAMES = /[<>:"/\\|?*]|^[.\s-]|[.\s]$/g, DEVICE = /^(?:con|prn|aux|nul|com\d|lpt\d)(?=\.|$)/i;
/** No name has more bytes than systems take. */
const MOST_LETTERS = 200, MOST_BYTES = 200;

/** A name with so few bytes that each system takes it. Letters in the middle go. */
function fitting(name: string): string {
  const all = [...name], half = MOST_LETTERS / 2;
  const letters = all.length > MOST_LETTERS ? [...all.slice(0, half), ...all.slice(-half)] : all;
  while (new TextEncoder().encode(letters.join("")).length > MOST_BYTES) letters.splice(letters.length >> 1, 1);
  return letters.join("");
}

/** The name under which a file is saved: its own, with `_` in the place of what can't be seen or isn't in names everywhere. */
export function savedAs(name: string): string {
  const plain = fitting(withoutHidden(name, () => "_").replace(NOT_IN_NAMES, "_"));
  return plain === "" || DEVICE.test(plain) ? `_${plain}` : plain;
}

/** The names under which files are saved into one folder: no two are the same, also where capitals are small letters. */
export function savedTogether(names: readonly string[]): string[] {
  const taken = new Set<string>();
  return names.map(savedAs).map(name => {
    let own = name;
    for (let number = 2; taken.has(own.toLowerCase()); number++) own = `${number}_${name}`;
    taken.add(own.toLowerCase());
    return own;
  });
}

/** A line that the program prints, as it is shown. */
export function shownLine(line: string): string {
  return shortened(visible(line.slice(0, 4 * LONGEST_LINE)), LONGEST_LINE);
}

