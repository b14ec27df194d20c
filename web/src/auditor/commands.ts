/* The calls of the library, most of which are commands of the program: what each needs, and its words, in the order of
   the parameters in pbaudit.h. */

import type { Mode } from "./statuses.js";

/** A file, or a text, in the library's memory. */
export interface Place {
  readonly at: bigint;
  readonly length: bigint;
}

/** The files that a command may take. */
export type Role = "election" | "outcome" | "certificate" | "violation";

/** A word of a call. */
export type Word = bigint | number;

/** By what is said what voters got: what their funded projects cost, or how many they are. */
export type Measure = "cost" | "count";

/**
 * What is asked: the files that the command takes, and how. The names and the language are for a page alone, and the
 * measure for groups that fall short.
 */
export interface Question {
  readonly files: { readonly [Name in Role]?: Place | undefined };
  readonly names: { readonly [Name in Role]?: Place | undefined };
  readonly mode: Mode;
  readonly measure?: Measure;
  readonly language?: Place | undefined;
}

/** What a certificate has to be: one of some kind, or of any. */
export type Wanted = "prices" | "violation" | "refutation" | "certificate";

/** A command. */
export interface Row {
  /** The number of its question, or one for each measure. A page has none, but a call of its own. */
  readonly question?: number | Readonly<Record<Measure, number>>;
  /** The files that it can't do without. */
  readonly needs: readonly Role[];
  /** What its certificate has to be. */
  readonly certificate?: Wanted;
  /** The page is told its text, which is a file to be saved, and not what it says. */
  readonly tellsText?: boolean;
  /** Its reply has no object: behind the first line is the text. */
  readonly lacksObject?: boolean;
  /** Its answer is a line or a few, for which little room is enough at first. */
  readonly isShort?: boolean;
}

const rows = <Table extends Record<string, Row>>(table: Table): Table => table;

export const COMMANDS = rows({
  read: { question: 0, needs: ["election"], isShort: true },
  groups: { question: { cost: 8, count: 9 }, needs: ["election"], isShort: true },
  prices: { question: 1, needs: ["election", "certificate"], certificate: "prices", isShort: true },
  violation: { question: 2, needs: ["election", "certificate"], certificate: "violation", isShort: true },
  refutation: { question: 3, needs: ["election", "certificate"], certificate: "refutation", isShort: true },
  both: { question: 4, needs: ["election", "certificate", "violation"], certificate: "prices", isShort: true },
  explain: { question: 5, needs: ["election", "certificate"], certificate: "certificate" },
  margins: { question: 6, needs: ["election", "certificate"], certificate: "prices", tellsText: true },
  tidy: { question: 7, needs: ["election", "certificate"], certificate: "prices", tellsText: true, lacksObject: true },
  page: { needs: ["election", "certificate"], certificate: "certificate" },
  explainGroups: { question: { cost: 10, count: 11 }, needs: ["election"] },
  groupMargins: { question: { cost: 12, count: 13 }, needs: ["election"], tellsText: true },
  groupsPage: { needs: ["election"] },
});

export type Command = keyof typeof COMMANDS;

/** The files of an election of a folder: its name without `.pb`, and the certificates that it has. */
export interface EntryFiles {
  readonly name: Place;
  readonly election: Place;
  readonly prices?: Place | undefined;
  readonly violation?: Place | undefined;
}

/** A call: the function, and its words but for the room of the answer. */
export interface Call {
  readonly name: string;
  readonly words: Word[];
}

const given = (place: Place | undefined): Word[] => {
  if (!place) throw new TypeError("a file that the command takes isn't given");
  return [place.at, place.length];
};

/** What a page is about, as a question that has an answer of its own. */
export const ABOUT_PAGE = { page: "explain", groupsPage: "groups" } as const;

export type PageCommand = keyof typeof ABOUT_PAGE;

export const isPage = (command: Command): command is PageCommand => command in ABOUT_PAGE;

/** A file of a command. One that isn't needed may be missing, but its pointer may not be null. */
function fileOf(command: Command, { files }: Question, role: Role): Word[] {
  const { needs }: Row = COMMANDS[command];
  return given(files[role] ?? (needs.includes(role) ? undefined : { ...files.election!, length: 0n }));
}

const switchesOf = ({ stable, exhaustive, cover }: Mode): Word[] => [stable, exhaustive, cover].map(Number);

const hasOutcome = ({ files }: Question): Word => Number(files.outcome !== undefined);

function measureOf({ measure }: Question): Measure {
  if (!measure) throw new TypeError("the measure by which groups are looked at isn't given");
  return measure;
}

/** The call of a question for all that is to be told of its answer. */
export function reportCall(command: Command, asked: Question): Call {
  const { question }: Row = COMMANDS[command], file = (role: Role): Word[] => fileOf(command, asked, role);
  const number = typeof question === "object" ? question[measureOf(asked)] : question;
  if (number === undefined) throw new TypeError(`${command} is no question`);
  const words = [
    number, ...file("election"), ...file("outcome"), hasOutcome(asked), ...file("certificate"), ...file("violation"),
    ...switchesOf(asked.mode),
  ];
  return { name: "pbaudit_report", words };
}

/** The call of a page. The facts that are told of its answer, which nobody reads, go to this place. */
export function pageCall(command: PageCommand, asked: Question, facts: Place): Call {
  const { names, language } = asked, file = (role: Role): Word[] => fileOf(command, asked, role);
  const begin = [
    ...file("election"), ...given(names.election), ...file("outcome"), ...given(names.outcome), hasOutcome(asked),
  ];
  const end = [...given(language), facts.at];
  if (command === "groupsPage") {
    return { name: "pbaudit_groups_page", words: [...begin, Number(measureOf(asked) === "count"), ...end] };
  }
  const words = [...begin, ...file("certificate"), ...given(names.certificate), ...switchesOf(asked.mode), ...end];
  return { name: "pbaudit_answer_page", words };
}

/** How a file of an entry is: missing, or there. */
const MISSING = 0, THERE = 1;

/** The call on the files of an election of a folder. How many are answered how goes to a place. */
export function entryCall({ name, election, prices, violation }: EntryFiles, mode: Mode, total: Place): Call {
  const file = (place: Place | undefined): Word[] => place ? [THERE, ...given(place)] : [MISSING, election.at, 0n];
  const words = [...given(name), ...file(election), ...file(prices), ...file(violation), ...switchesOf(mode), total.at];
  return { name: "pbaudit_folder_entry", words };
}

/** The call for what is told of a total. */
export const totalCall = (total: Place): Call => ({ name: "pbaudit_folder_total", words: [total.at] });
