/* The files that were given: what each is, and which belong together. */

import type { Kind } from "../auditor/kinds.js";
import type { Mode } from "../auditor/statuses.js";

/** A file that was found. `folder` is the folder that it lay in, where a folder was given. */
export interface Found {
  readonly file: File;
  readonly folder: string;
}

/**
 * A file that was given. The auditor told its kind, or else its name does, or somebody chose it. An example is the
 * page's own. Prices that the page made are asked as they were looked for, by `mode`.
 */
export interface Piece extends Found {
  readonly kind: Kind;
  readonly isTold: boolean;
  readonly isExample?: boolean;
  readonly mode?: Mode;
}

/**
 * What is to be audited: a certificate with its election, or an election alone. `asks` says what the names of the files
 * leave open, and somebody has to choose first.
 */
export interface Task {
  readonly election: Piece | null;
  readonly certificate: Piece | null;
  readonly outcome: Piece | null;
  readonly asks?: "election" | "outcome";
}

/** What somebody chose for a certificate, or for an election alone, where that isn't what the names say. */
export interface Choice {
  readonly election?: Piece | undefined;
  readonly outcome?: Piece | null | undefined;
}

/** How the name of each kind of file ends. */
const ENDINGS: readonly [Kind, string][] = [
  ["prices", ".prices.csv"], ["violation", ".violation.csv"], ["refutation", ".refutation.csv"],
  ["outcome", ".outcome.csv"], ["election", ".pb"],
];

const lower = (name: string): string => name.toLowerCase();

/** What a file is by its name, which is asked where the auditor doesn't tell. */
const kindByName = (name: string): Kind =>
  ENDINGS.find(([, ending]) => lower(name).endsWith(ending))?.[0] ?? "unknown";

/** A file that was given, with its kind, if the auditor told one. */
export function pieceOf({ file, folder }: Found, told: Kind = "unknown"): Piece {
  const isTold = told !== "unknown";
  return { file, folder, kind: isTold ? told : kindByName(file.name), isTold };
}

/** The names of spreadsheets, and of sheets that are saved as text, which the page can read. */
const SPREADSHEET = /\.(csv|tsv|xlsx?|ods)$/i, SHEET = /\.(csv|tsv)$/i;

export const isSheet = ({ file, kind }: Piece): boolean => kind === "unknown" && SHEET.test(file.name);

/**
 * The sheets that are no file for an audit: those that are asked about, and while there is no election those that were
 * passed over.
 */
export function sheetsAmong(pieces: readonly Piece[], passedOver: readonly Piece[]): Piece[] {
  const asked = pieces.filter(({ kind }) => kind === "unknown");
  const others = pieces.some(({ kind }) => kind === "election") ? [] : passedOver;
  return [...asked, ...others].filter(({ file }) => SPREADSHEET.test(file.name));
}

export const isCertificateKind = (kind: Kind | undefined): kind is "prices" | "violation" | "refutation" =>
  kind === "prices" || kind === "violation" || kind === "refutation";

export const isCertificate = (piece: Piece): boolean => isCertificateKind(piece.kind);

export const pathOf = (piece: Piece): string => `${piece.folder}${piece.file.name}`;

/** The name of an election without its ending. */
const stemOf = (piece: Piece): string => piece.file.name.replace(/\.pb$/i, "");

/** The fronts of a name that end before a point, the longest first. */
function frontsOf(name: string): string[] {
  const parts = name.split(".");
  return parts.slice(1).map((_, at) => parts.slice(0, parts.length - 1 - at).join("."));
}

/** Finds pieces by their folder and a name. */
function piecesBy(nameOf: (piece: Piece) => string, pieces: readonly Piece[]): (folder: string, name: string) => Piece[] {
  const keyOf = (folder: string, name: string): string => `${folder}/${name}`, found = new Map<string, Piece[]>();
  for (const piece of pieces) {
    const key = keyOf(piece.folder, nameOf(piece));
    found.set(key, [...found.get(key) ?? [], piece]);
  }
  return (folder, name) => found.get(keyOf(folder, name)) ?? [];
}

const onlyOf = (pieces: readonly Piece[]): Piece | null => pieces.length === 1 ? pieces[0] : null;

type Finding = (piece: Piece) => Piece | null;

/**
 * Finds the election of whose name a file's name begins, the longest such in its own folder; or the only one of whose
 * name it begins but for capitals.
 */
function electionsAmong(elections: readonly Piece[]): Finding {
  const named = piecesBy(stemOf, elections), alike = piecesBy(each => lower(stemOf(each)), elections);
  return ({ folder, file }) => {
    const [longest] = frontsOf(file.name).flatMap(front => named(folder, front));
    return longest ?? onlyOf(frontsOf(lower(file.name)).flatMap(front => alike(folder, front)));
  };
}

/**
 * Finds the outcome file that is named as a certificate is, as A.B.outcome.csv beside A.B.prices.csv, or as an election;
 * or the only one that is named so but for capitals.
 */
function outcomesAmong(outcomes: readonly Piece[]): Finding {
  const named = piecesBy(({ file }) => file.name, outcomes), alike = piecesBy(({ file }) => lower(file.name), outcomes);
  return ({ folder, file }) => {
    const name = file.name.replace(/(\.(prices|violation|refutation)\.csv|\.pb)$/i, ".outcome.csv");
    return named(folder, name)[0] ?? onlyOf(alike(folder, lower(name)));
  };
}

/**
 * The elections for which there is an outcome file that is named for no certificate, and for this election, or for none
 * where there is no other.
 */
function openElections(elections: readonly Piece[], open: readonly Piece[], electionOf: Finding): Set<Piece | null> {
  return new Set(open.map(each => electionOf(each) ?? onlyOf(elections)));
}

/**
 * What is to be audited: each certificate, and the elections that have none. `choices`, of certificates and of elections,
 * come before names.
 */
export function tasksOf(pieces: readonly Piece[], choices: ReadonlyMap<Piece, Choice>): Task[] {
  const ofKind = (kind: Kind): Piece[] => pieces.filter(piece => piece.kind === kind);
  const elections = ofKind("election"), outcomes = ofKind("outcome"), certificates = pieces.filter(isCertificate);
  const electionOf = electionsAmong(elections), namedOutcome = outcomesAmong(outcomes);
  const named = new Set(certificates.map(namedOutcome));
  const openTo = openElections(elections, outcomes.filter(each => !named.has(each)), electionOf);
  const tasks = certificates.map((certificate): Task => {
    const chosen = choices.get(certificate) ?? {};
    const election = chosen.election ?? electionOf(certificate);
    const outcome = chosen.outcome === undefined ? namedOutcome(certificate) : chosen.outcome;
    if (!election) return { election, certificate, outcome, asks: "election" };
    const isOpen = chosen.outcome === undefined && !outcome && openTo.has(election);
    return { election, certificate, outcome, ...isOpen ? { asks: "outcome" } : {} };
  });
  const audited = new Set(tasks.map(task => task.election));
  const alone = elections.filter(election => !audited.has(election));
  const outcomeOf = (election: Piece): Piece | null => {
    const chosen = choices.get(election)?.outcome;
    return chosen === undefined ? namedOutcome(election) : chosen;
  };
  return [...tasks, ...alone.map(election => ({ election, certificate: null, outcome: outcomeOf(election) }))].sort(byName);
}

function byName(a: Task, b: Task): number {
  const keyOf = ({ election, certificate }: Task): string =>
    `${placeOf(election ?? certificate)}\0${placeOf(certificate)}`;
  return keyOf(a) < keyOf(b) ? -1 : 1;
}

const placeOf = (piece: Piece | null): string => piece ? `${piece.folder}/${piece.file.name}` : "";

export const isSamePath = (a: Piece, b: Piece): boolean => placeOf(a) === placeOf(b);

/** Adds files to those that are there. Of those of one name and folder the one that came last is kept. */
export function withPieces(pieces: readonly Piece[], added: readonly Piece[]): Piece[] {
  const all = [...pieces, ...added], last = new Map(all.map(piece => [placeOf(piece), piece]));
  return all.filter(piece => last.get(placeOf(piece)) === piece);
}

/**
 * The choices among the files that are there now. What was chosen for a file, and where it was chosen itself, goes over
 * to the file that took its place, if that can be the same; a file that is gone is chosen no more. `replaced` says by
 * which file each was replaced.
 */
export function choicesAmong(
  choices: ReadonlyMap<Piece, Choice>, pieces: readonly Piece[], replaced: ReadonlyMap<Piece, Piece>,
): Map<Piece, Choice> {
  const now = (old: Piece): Piece | undefined => {
    const isLike = (each: Piece): boolean => each.kind === old.kind || (isCertificate(each) && isCertificate(old));
    const places = pieces.filter(each => each === replaced.get(old) || isSamePath(each, old));
    return pieces.includes(old) ? old : places.find(isLike);
  };
  const kept = new Map<Piece, Choice>();
  for (const [certificate, { election, outcome }] of choices) {
    const its = now(certificate);
    if (its) kept.set(its, { election: election && now(election), outcome: outcome && now(outcome) });
  }
  return kept;
}
