/* The cells of a sheet that a spreadsheet saved as a text: which bytes are no text, and where rows and cells end. */

const QUOTE = '"';

/** The separators that spreadsheets put between cells. */
export const SEPARATORS = [";", "\t", ","] as const;

/** A text, and whether the bytes were one; what is none stands in it as U+FFFD. */
export interface Decoded {
  readonly text: string;
  readonly isUtf8: boolean;
}

const decoded = (bytes: Uint8Array, fatal: boolean): string =>
  new TextDecoder("utf-8", { fatal, ignoreBOM: true }).decode(bytes).replace(/^\ufeff+/, "");

export function textOf(bytes: Uint8Array): Decoded {
  try {
    return { text: decoded(bytes, true), isUtf8: true };
  } catch (error) {
    if (!(error instanceof TypeError)) throw error;
    return { text: decoded(bytes, false), isUtf8: false };
  }
}

const isBlank = (code: number): boolean => code === 32 || code >= 9 && code <= 13;

/** A text without the blanks and line ends around it; other spaces stay. */
export function trimmed(text: string): string {
  let start = 0, end = text.length;
  while (start < end && isBlank(text.charCodeAt(start))) start++;
  while (start < end && isBlank(text.charCodeAt(end - 1))) end--;
  return text.slice(start, end);
}

/** A quotation mark isn't closed, or something follows a closed one. */
class BadQuotes extends Error {}

/** Cuts a text into cells. */
class Cutter {
  private at = 0;

  constructor(private readonly text: string, private readonly separator: string) {}

  get isAtEnd(): boolean {
    return this.at >= this.text.length;
  }

  row(): string[] {
    const cells = [this.cell()];
    while (this.text[this.at] === this.separator) {
      this.at++;
      cells.push(this.cell());
    }
    this.at += this.text.startsWith("\r\n", this.at) ? 2 : 1;
    return cells;
  }

  private cell(): string {
    return trimmed(this.text[this.at] === QUOTE ? this.quoted() : this.plain());
  }

  private plain(): string {
    const start = this.at;
    while (!this.isEnd()) this.at++;
    return this.text.slice(start, this.at);
  }

  private quoted(): string {
    let told = "";
    for (;;) {
      const end = this.text.indexOf(QUOTE, this.at + 1);
      if (end < 0) throw new BadQuotes();
      told += this.text.slice(this.at + 1, end);
      this.at = end + 1;
      if (this.text[this.at] !== QUOTE) break;
      told += QUOTE;
    }
    if (!this.isEnd()) throw new BadQuotes();
    return told;
  }

  /** Whether a cell ends here. */
  private isEnd(): boolean {
    const next = this.text[this.at];
    return next === undefined || next === this.separator || next === "\n" || next === "\r";
  }
}

/** The rows of a sheet, whose cells are cleaned. One with a wrong quotation mark is undefined, and the last. */
export function* rowsOf(text: string, separator: string): Generator<string[] | undefined> {
  const cutter = new Cutter(text, separator);
  try {
    while (!cutter.isAtEnd) yield cutter.row();
  } catch (error) {
    if (!(error instanceof BadQuotes)) throw error;
    yield undefined;
  }
}

/** The first row of a sheet; of one without any, or with a wrong quotation mark, no cells. */
export const firstRow = (text: string, separator: string): readonly string[] =>
  rowsOf(text, separator).next().value ?? [];
