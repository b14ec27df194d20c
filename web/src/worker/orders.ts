/* What the page and its worker say to each other. */

import type { Command } from "../auditor/commands.js";
import type { Note, ReadElection } from "../auditor/elections.js";
import type { FirstAnswers } from "../auditor/groups.js";
import type { Kind } from "../auditor/kinds.js";
import type { OnGroups, RefusalObject } from "../auditor/objects.js";
import type { Line } from "../auditor/says.js";
import type { Mode } from "../auditor/statuses.js";

/** The files of an audit: themselves, or the numbers under which a worker has them. */
export interface Files<Named = File> {
  readonly election: Named;
  readonly outcome: Named | null;
  readonly certificate: Named | null;
}

/** The first message to a worker. */
export interface Beginning {
  readonly module: WebAssembly.Module;
}

/** Asks a command of files. */
export interface Order<Named = File> {
  readonly command: Command;
  readonly files: Files<Named>;
  /** What the next order will be about, which is read meanwhile. */
  readonly ahead?: Files<Named>;
  readonly mode: Mode;
  readonly language: string;
  /** Whether the answer is told as soon as it is there, and the rest after it. */
  readonly isEarly?: boolean;
  /** The names by which a page calls the files, where it is to hold them, so that they can be saved from it. */
  readonly savedAs?: Files<string>;
  /** How often it is done; only the last time is told. */
  readonly rounds?: number;
}

/** Asks what files are. */
export interface KindsOrder<Named = File> {
  readonly command: "kinds";
  readonly list: readonly Named[];
}

/** Asks for the SHA-256 of files. */
export interface SumsOrder<Named = File> {
  readonly command: "sums";
  readonly list: readonly Named[];
}

export type Asked<Named = File> = Order<Named> | KindsOrder<Named> | SumsOrder<Named>;

/** What a worker is sent: an order, and those of its files that it hasn't got, which it numbers on. */
export interface Sent {
  readonly order: Asked<number>;
  readonly files: readonly File[];
}

/** Sums of the bytes that were read, by which a file is known that was changed since. */
export type Sums = readonly string[];

/**
 * What an answer says: the line that the program prints first, the same as facts, what is remarked on the election, and
 * what a yes to prices says of groups.
 */
export interface Says {
  readonly line: string;
  readonly said: Line;
  readonly notes: readonly Note[];
  readonly groups: OnGroups | null;
}

/** A file that a page holds: its name, its SHA-256, and a link that has its bytes. */
export interface Held {
  readonly name: string;
  readonly sum: string;
  readonly link: string;
}

/**
 * An answer. `kind` is what the auditor takes the certificate for, `text` a page or a table, `read` what an election has
 * that was asked about without a certificate, and `short` whether a group falls short there. Where it is told early, what
 * comes after it is missing.
 */
export interface Answer extends Partial<Says> {
  readonly tells: "answer";
  readonly status: number;
  readonly kind: Kind;
  readonly sums?: Sums;
  readonly text?: Uint8Array;
  readonly read?: ReadElection;
  readonly short?: FirstAnswers;
  readonly held?: Files<Held>;
}

/** What comes after an answer that was told early. */
export interface Rest extends Partial<Omit<Answer, "tells">> {
  readonly tells: "rest";
}

/** Why there is no answer. */
export interface Nothing {
  readonly tells: "nothing";
  readonly why: "memory" | "trap" | "unreadable" | "engine";
  readonly file?: string;
}

/**
 * A refused file: its fault, the line that the program prints, the file's name, the line of the file (0: it has none),
 * why, and what stands there.
 */
export interface Refused {
  readonly tells: "refused";
  readonly fault: RefusalObject;
  readonly text: string;
  readonly file: string;
  readonly line: number;
  readonly sentences: readonly string[];
  readonly excerpt: string;
  readonly kind: Kind;
  readonly sums: Sums;
}

/** How far it is: the worker is there, so many bytes are read, or it checks now. */
export type Step =
  | { readonly tells: "ready" }
  | { readonly tells: "reading"; readonly done: number; readonly all: number }
  | { readonly tells: "checking" };

/** What ends an order. */
export type Ending =
  | Answer
  | Rest
  | Refused
  | { readonly tells: "kinds"; readonly kinds: readonly Kind[] }
  | { readonly tells: "sums"; readonly sums: readonly string[] }
  | Nothing;

/** That an order is done, and the bytes of memory that the worker has taken. */
export interface Done {
  readonly tells: "done";
  readonly ending: Ending;
  readonly taken: number;
}

/** What a worker says: how far it is, an answer after which the rest comes, and that it is done. */
export type Message = Step | Answer | Done;
