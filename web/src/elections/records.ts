/* The records of a file, by the rules of docs/FORMATS.md: where fields end, what quotes do, and cleaning. */

const LINE_FEED = 10, RETURN = 13, QUOTE = 34;
const BYTE_ORDER_MARK = [0xef, 0xbb, 0xbf];

export const COMMA = 44, SEMICOLON = 59;

const isSpace = (byte: number): boolean => byte === 32 || byte >= 9 && byte <= 13;

/** A stretch of a file's bytes. */
export interface Field {
  readonly start: number;
  readonly end: number;
}

/** A stretch without the spaces, tabs and line ends around it. */
export function cleaned(bytes: Uint8Array, start: number, end: number): Field {
  while (start < end && isSpace(bytes[start])) start++;
  while (start < end && isSpace(bytes[end - 1])) end--;
  return { start, end };
}

/**
 * Reads a file record by record. A field in quotes is written anew over its own bytes, without the quotes, so that each
 * field is a stretch of the bytes.
 */
export class Records {
  /** The fields of the record, cleaned. */
  fields: Field[] = [];
  private at = 0;
  private readonly decoder = new TextDecoder("utf-8", { ignoreBOM: true });

  constructor(readonly bytes: Uint8Array, private readonly separator: number) {
    while (BYTE_ORDER_MARK.every((byte, place) => bytes[this.at + place] === byte)) this.at += BYTE_ORDER_MARK.length;
  }

  /** Goes on to the next record that isn't blank. Whether there is one. */
  next(): boolean {
    while (this.at < this.bytes.length) {
      this.fields = [];
      while (!this.readField());
      if (this.fields.some(({ start, end }) => start < end)) return true;
    }
    return false;
  }

  /** A field as text; empty where the record has no such field. */
  text(place: number): string {
    const field = this.fields[place];
    return field ? this.decoder.decode(this.bytes.subarray(field.start, field.end)) : "";
  }

  /** Reads a field. Whether it is the last of its record. */
  private readField(): boolean {
    const start = this.at;
    const end = this.bytes[start] === QUOTE ? this.unquoted() : this.endOfField();
    this.fields.push(cleaned(this.bytes, start, end));
    const byte = this.bytes[this.at];
    this.at += byte === RETURN && this.bytes[this.at + 1] === LINE_FEED ? 2 : 1;
    return byte !== this.separator;
  }

  /** Goes on to the end of a field, and answers it. */
  private endOfField(): number {
    const { bytes, separator } = this;
    let at = this.at;
    for (; at < bytes.length; at++) {
      const byte = bytes[at];
      if (byte === separator || byte === LINE_FEED || byte === RETURN) break;
    }
    return this.at = at;
  }

  /** Writes a field in quotes over itself, and answers where what was written ends. */
  private unquoted(): number {
    const { bytes } = this;
    let to = this.at, from = this.at + 1;
    for (; from < bytes.length; from++) {
      if (bytes[from] === QUOTE && bytes[++from] !== QUOTE) break;
      bytes[to++] = bytes[from];
    }
    this.at = Math.min(from, bytes.length);
    const end = this.endOfField();
    bytes.copyWithin(to, Math.min(from, bytes.length), end);
    return to + end - Math.min(from, bytes.length);
  }
}
