/* What a caller hands in: files, options and names. Each is taken as what it plainly is, or a TypeError names it. */

import { USUAL_MODE } from "../auditor/statuses.js";
import { seen, shortened } from "../files/names.js";
import type { Measure, Role } from "../auditor/commands.js";
import type { Mode } from "../auditor/statuses.js";

/** A file: its text, or its bytes in a buffer or in a view of one. */
export type Source = string | ArrayBuffer | SharedArrayBuffer | ArrayBufferView;

/** What a page calls the files. */
export interface Names {
  readonly election?: string;
  readonly outcome?: string;
  readonly certificate?: string;
}

/** What is asked: the files, as their bytes or as they were taken, and how. */
export interface Handed<Taken = Uint8Array> {
  readonly files: { readonly [Name in Role]?: Taken };
  readonly mode: Mode;
  readonly measure: Measure;
  readonly language: string;
  readonly names: Names;
}

/** Takes a file that was handed in by a name, or throws a TypeError that names it. */
export type Take<Taken> = (source: unknown, name: string) => Taken;

type Fields = Readonly<Record<string, unknown>>;

const SWITCHES = ["stable", "exhaustive", "cover"] as const;
const ON_PRICES = ["outcome", ...SWITCHES];
const ON_GROUPS = ["outcome", "satisfaction"];
const NAMED = ["election", "outcome", "certificate"];
const LANGUAGE = /^(en|pl|de|fr)(?:-[a-z0-9]+)*$/i;
const LANGUAGES = "en, pl, de or fr, or one of these with a region, as de-AT";
/** Half of a pair of surrogates. UTF-8 has no bytes for it. */
const HALF = /[\ud800-\udfff]/u;
const MOST_SHOWN = 40;

/** The arguments of a call: its files by their names in order, and then an object of options. */
interface Arguments {
  readonly files: Readonly<Record<string, Role>>;
  readonly options: readonly string[];
}

const calls = <Table extends Readonly<Record<string, Arguments>>>(table: Table): Table => table;
const ONE: Arguments["files"] = { election: "election", certificate: "certificate" };

const CALLS = calls({
  read: { files: { election: "election" }, options: [] },
  groups: { files: { election: "election" }, options: ON_GROUPS },
  prices: { files: ONE, options: ON_PRICES },
  violation: { files: ONE, options: ["outcome"] },
  refutation: { files: ONE, options: ["outcome", "stable"] },
  both: { files: { election: "election", prices: "certificate", violation: "violation" }, options: ON_PRICES },
  explain: { files: ONE, options: ON_PRICES },
  page: { files: ONE, options: [...ON_PRICES, "language", "names"] },
  margins: { files: ONE, options: ["outcome"] },
  explainGroups: { files: { election: "election" }, options: ON_GROUPS },
  groupMargins: { files: { election: "election" }, options: ON_GROUPS },
  groupsPage: { files: { election: "election" }, options: [...ON_GROUPS, "language", "names"] },
  tidy: { files: ONE, options: [] },
});

export type CallName = keyof typeof CALLS;

const quoted = (text: string): string => `'${seen(shortened(text, MOST_SHOWN))}'`;

/** What a value is, for people. */
function shown(value: unknown): string {
  if (typeof value === "string") return quoted(value);
  if (typeof value === "function") return "a function";
  if (typeof value !== "object" || value === null) return String(value);
  const kind = seen(shortened(Object.prototype.toString.call(value).slice("[object ".length, -1), MOST_SHOWN));
  return `${/^[aeiou]/i.test(kind) ? "an" : "a"} ${kind}`;
}

export const wrong = (name: string, wanted: string, value: unknown, more = ""): TypeError =>
  new TypeError(`${name} has to be ${wanted}, and not ${shown(value)}${more}`);

const textIn = (text: string, name: string): string => {
  if (HALF.test(text)) throw new TypeError(`${name} has half of a pair of surrogates, which isn't text`);
  return text;
};

/** What reads the length of a buffer, whichever window or context made it. Not all browsers have shared ones. */
const LENGTHS = [ArrayBuffer, ...typeof SharedArrayBuffer === "undefined" ? [] : [SharedArrayBuffer]]
  .map(each => Object.getOwnPropertyDescriptor(each.prototype, "byteLength")!.get!);

function isBuffer(value: unknown): value is ArrayBuffer | SharedArrayBuffer {
  return LENGTHS.some(length => {
    try {
      length.call(value);
      return true;
    } catch {
      return false;
    }
  });
}

/** How the bytes are had of what doesn't have them yet. */
export function howToWait(value: unknown): string {
  const { arrayBuffer, then } = Object(value) as Fields;
  if (typeof arrayBuffer === "function") return ": await its arrayBuffer()";
  return typeof then === "function" ? ": await it" : "";
}

export const isBytes = (source: unknown): source is Exclude<Source, string> =>
  ArrayBuffer.isView(source) || isBuffer(source);

/** What typed arrays have, whichever window or context made them. A view of no such kind is a DataView. */
const ARRAYS = Object.getPrototypeOf(Uint8Array.prototype) as Uint8Array;
const arrayKind = Object.getOwnPropertyDescriptor(ARRAYS, Symbol.toStringTag)!.get!;

/** The bytes of a view. An array that reaches beyond its buffer says that it is empty, and fails where it is asked for keys. */
function bytesInView(view: ArrayBufferView): Uint8Array {
  if (arrayKind.call(view) !== undefined) ARRAYS.keys.call(view as Uint8Array);
  return new Uint8Array(view.buffer, view.byteOffset, view.byteLength);
}

/** The bytes of a file. Those of a buffer aren't copied. */
export function bytesOf(source: unknown, name: string): Uint8Array {
  if (typeof source === "string") return new TextEncoder().encode(textIn(source, name));
  if (!isBytes(source)) throw wrong(name, "text or bytes", source, howToWait(source));
  try {
    return ArrayBuffer.isView(source) ? bytesInView(source) : new Uint8Array(source);
  } catch {
    throw new TypeError(`${name} is a buffer whose bytes were handed on to somebody else, or a view of one that was cut short`);
  }
}

/** Whether this is an object that has nothing but what was written into it. */
function isPlain(value: unknown): value is object {
  if (typeof value !== "object" || value === null || Array.isArray(value)) return false;
  const above: unknown = Object.getPrototypeOf(value);
  return above === null || (Object.getPrototypeOf(above) === null && Object.hasOwn(above as object, "isPrototypeOf"));
}

/** The fields of an object that were given. One name more, as of a misspelt option, would be another question. */
function fieldsOf(value: unknown, what: string, kind: string, names: readonly string[]): Fields {
  if (value === undefined) return {};
  if (!isPlain(value)) throw wrong(what, "a plain object", value);
  const keys = Reflect.ownKeys(value), other = keys.find(key => typeof key === "symbol" || !names.includes(key));
  if (other !== undefined) {
    const those = names.length > 0 ? `those are ${names.join(", ")}` : "this call has none";
    throw new TypeError(`there is no ${kind} ${quoted(String(other))} here: ${those}`);
  }
  const fields = (keys as string[]).map(key => [key, (value as Fields)[key]] as const);
  return Object.fromEntries(fields.filter(([, field]) => field !== undefined));
}

function modeIn(options: Fields): Mode {
  const wanted: Record<string, boolean> = { ...USUAL_MODE };
  for (const name of SWITCHES.filter(each => Object.hasOwn(options, each))) {
    const value = options[name];
    if (typeof value !== "boolean") throw wrong(`the option '${name}'`, "true or false", value);
    wanted[name] = value;
  }
  return wanted as unknown as Mode;
}

function measureIn(value: unknown): Measure {
  if (value !== "cost" && value !== "count") throw wrong("the option 'satisfaction'", "cost or count", value);
  return value;
}

function languageIn(value: unknown): string {
  const [, code] = (typeof value === "string" && LANGUAGE.exec(value)) || [];
  if (code === undefined) throw wrong("the option 'language'", LANGUAGES, value);
  return code.toLowerCase();
}

/** What the files are called, of those that the call may take. */
function namesIn(value: unknown, files: readonly string[]): Names {
  const names = fieldsOf(value, "the option 'names'", "name", files);
  for (const [name, text] of Object.entries(names)) {
    if (typeof text !== "string") throw wrong(`the name of '${name}'`, "text", text);
    textIn(text, `the name of '${name}'`);
  }
  return names;
}

function refuseMore(call: string, handed: readonly unknown[], most: number): void {
  if (handed.slice(most).some(each => each !== undefined)) throw new TypeError(`${call} takes ${most} arguments and no more`);
}

/** The arguments of a call. */
export function handedIn<Taken>(call: CallName, handed: readonly unknown[], take: Take<Taken>): Handed<Taken> {
  const { files, options: names }: Arguments = CALLS[call], roles = Object.entries(files);
  refuseMore(call, handed, roles.length + 1);
  const options = fieldsOf(handed[roles.length], "the argument of options", "option", names);
  const given = roles.map(([name, role], at) => [role, take(handed[at], name)] as const);
  const outcome = Object.hasOwn(options, "outcome") ? [["outcome", take(options.outcome, "outcome")] as const] : [];
  return {
    files: Object.fromEntries([...given, ...outcome]) as Handed<Taken>["files"], mode: modeIn(options),
    measure: Object.hasOwn(options, "satisfaction") ? measureIn(options.satisfaction) : "cost",
    language: Object.hasOwn(options, "language") ? languageIn(options.language) : "en",
    names: Object.hasOwn(options, "names") ? namesIn(options.names, NAMED.filter(name => name === "outcome" || name in files)) : {},
  };
}

const FILES = "the files of a folder", PAIRS = "a Map of files by their names, or pairs of a name and a file";

/** A folder: its files by their names, and what is asked of prices. */
export interface HandedFolder<Taken> {
  readonly files: ReadonlyMap<string, Taken>;
  readonly mode: Mode;
}

export function folderIn<Taken>(handed: readonly unknown[], take: Take<Taken>): HandedFolder<Taken> {
  refuseMore("folder", handed, 2);
  const [given, options] = handed, files = new Map<string, Taken>();
  const { [Symbol.iterator]: each } = Object(given) as { [Symbol.iterator]?: unknown };
  if (typeof given === "string" || typeof each !== "function") throw wrong(FILES, PAIRS, given);
  const mode = modeIn(fieldsOf(options, "the argument of options", "option", SWITCHES));
  for (const pair of given as Iterable<unknown>) {
    if (!Array.isArray(pair) || pair.length !== 2) throw wrong(FILES, PAIRS, pair);
    const [name, source] = pair as [unknown, unknown];
    if (typeof name !== "string") throw wrong("the name of a file", "text", name);
    const called = `the file ${quoted(textIn(name, "the name of a file"))}`;
    if (files.has(name)) throw new TypeError(`${called} is there twice`);
    files.set(name, take(source, called));
  }
  return { files, mode };
}
