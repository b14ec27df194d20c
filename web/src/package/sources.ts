/* Files that may still have to be read: text and bytes, Blobs and streams. Each is taken as what it plainly is, or a
   TypeError names it. */

import { LONGEST_FILE } from "../auditor/statuses.js";
import { bytesOf, howToWait, isBytes, wrong } from "./handed.js";
import type { Handed, HandedFolder, Source } from "./handed.js";

/** A Blob or a File, as browsers and Node have them. */
export interface BlobSource {
  readonly size: number;
  slice(from: number, to: number): BlobSource;
  arrayBuffer(): Promise<ArrayBuffer>;
}

/** A ReadableStream of bytes, as the body of a Response. */
export interface StreamSource {
  readonly locked: boolean;
  getReader(): StreamReader;
}

interface StreamReader {
  read(): Promise<{ readonly done: boolean; readonly value?: Uint8Array | undefined }>;
  cancel(): Promise<unknown>;
}

/** A file: its text or its bytes, or what gives these. */
export type AnySource = Source | BlobSource | StreamSource;

/** A file that was taken, and a Blob where it is one. */
export interface Taken {
  readonly bytes: () => Promise<Uint8Array>;
  readonly blob?: BlobSource;
}

/** So much of a file is read. Of one that is too long that is enough that it is refused. */
const MOST_READ = LONGEST_FILE + 1;

/** Whether a value is one of a class of the browser or of Node, by a property that nothing else can be asked for. */
function isOne(owner: unknown, property: string, value: unknown): boolean {
  const { prototype } = Object(owner) as { prototype?: object };
  const get = prototype && Object.getOwnPropertyDescriptor(prototype, property)?.get;
  try {
    if (!get) return false;
    get.call(value);
    return true;
  } catch {
    return false;
  }
}

const isBlob = (value: unknown): value is BlobSource =>
  typeof Blob !== "undefined" && isOne(Blob, "size", value);

const isStream = (value: unknown): value is StreamSource =>
  typeof ReadableStream !== "undefined" && isOne(ReadableStream, "locked", value);

async function bytesOfBlob(blob: BlobSource): Promise<Uint8Array> {
  const part = blob.size > MOST_READ ? blob.slice(0, MOST_READ) : blob;
  return new Uint8Array(await part.arrayBuffer());
}

/** Pieces one after the other. */
function joined(pieces: readonly Uint8Array[], length: number): Uint8Array {
  const all = new Uint8Array(length);
  let at = 0;
  for (const piece of pieces) {
    all.set(piece, at);
    at += piece.length;
  }
  return all;
}

/** Ends a stream of which no more is wanted. What it says of that is nobody's concern. */
const end = (reader: StreamReader): void => {
  reader.cancel().catch(() => {});
};

/** The bytes that a reader gives. */
async function bytesOfReader(reader: StreamReader, name: string): Promise<Uint8Array> {
  const pieces: Uint8Array[] = [];
  let length = 0;
  while (length < MOST_READ) {
    const { done, value } = await reader.read();
    if (done) return joined(pieces, length);
    const piece: unknown = value;
    if (!isBytes(piece)) {
      end(reader);
      throw wrong(`each piece of the stream ${name}`, "bytes", piece);
    }
    pieces.push(bytesOf(piece, name));
    length += piece.byteLength;
  }
  end(reader);
  return joined(pieces, length);
}

/** How a stream of Node is had as one of those that browsers have too. */
const asStream = (value: unknown): string =>
  typeof (Object(value) as { pipe?: unknown }).pipe === "function" ? ": hand in Readable.toWeb() of it" : "";

function refuseLocked(stream: StreamSource, name: string): void {
  if (stream.locked) throw new TypeError(`${name} is a stream that somebody else reads`);
}

/** Takes a file as it is now: bytes are copied, since they may change before they are asked about. */
export function takenLater(source: unknown, name: string): Taken {
  if (isBlob(source)) return { bytes: () => bytesOfBlob(source), blob: source };
  if (isStream(source)) {
    refuseLocked(source, name);
    return {
      bytes: async () => {
        refuseLocked(source, name);
        return bytesOfReader(source.getReader(), name);
      },
    };
  }
  if (typeof source !== "string" && !isBytes(source)) {
    throw wrong(name, "text, bytes, a Blob or a stream", source, howToWait(source) || asStream(source));
  }
  const given = bytesOf(source, name), bytes = typeof source === "string" ? given : given.slice();
  return { bytes: async () => bytes };
}

/** A question with something for each of its files. */
export async function withEach<From, To>(given: Handed<From>, to: (file: From) => Promise<To>): Promise<Handed<To>> {
  const roles = Object.entries(given.files) as [string, From][];
  const files = await Promise.all(roles.map(async ([role, file]) => [role, await to(file)] as const));
  return { ...given, files: Object.fromEntries(files) as Handed<To>["files"] };
}

/** A folder with something for each of those of its files that are wanted. */
export async function withWanted<From, To>(
  { files, mode }: HandedFolder<From>, isWanted: (name: string) => boolean, to: (file: From) => Promise<To>,
): Promise<HandedFolder<To>> {
  const wanted = [...files].filter(([name]) => isWanted(name));
  return { files: new Map(await Promise.all(wanted.map(async ([name, file]) => [name, await to(file)] as const))), mode };
}
