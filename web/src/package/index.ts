/* The auditor for JavaScript: the proved library's answers, with what they say as facts. */

import { OutOfMemory } from "../auditor/statuses.js";
import { Here, Later } from "./answering.js";
import { AtHand } from "./at_hand.js";
import { Library } from "./library.js";
import { loadedModule } from "./module.js";
import type { Measure } from "../auditor/commands.js";
import type { Mode } from "../auditor/statuses.js";
import type { Both, Page, Reading, Refused, Report, Verdict, Written } from "./facts.js";
import type { Names, Source } from "./handed.js";
import type { AsyncAuditor } from "./later.js";

export { OutOfMemory };
export type { Both, Measure, Mode, Page, Reading, Refused, Report, Verdict, Written };
export type { No, Reported, Yes } from "./facts.js";
export type { Names, Source } from "./handed.js";
export type { AsyncAuditor, LaterFor, WorkerAuditor } from "./later.js";
export type { AnySource, BlobSource, StreamSource } from "./sources.js";
export type { Note } from "../auditor/elections.js";
export type { OnGroups } from "../auditor/objects.js";
export type {
  Failed, Line, ReadLine, RefusedLine, Satisfied, Supported, Unpriceable, Violated,
} from "../auditor/says.js";

/** The outcome in the place of the election's own. */
export interface ForOutcome {
  readonly outcome?: Source;
}

/** What is asked of prices: usually condition Exhaustive too, and neither the stable form nor condition Cover. */
export interface ForPrices extends ForOutcome, Partial<Mode> {}

/** What is asked of a refutation: whether it refutes stable prices alone, where it doesn't refute all. */
export interface ForRefutation extends ForOutcome {
  readonly stable?: boolean;
}

/** By what it is said what voters got: usually by what their funded projects cost, or by how many they are. */
export interface ForGroups extends ForOutcome {
  readonly satisfaction?: Measure;
}

type Code = "en" | "pl" | "de" | "fr";
type AnyCode = Code | Uppercase<Code>;
/** A language, perhaps with a region, as `de-AT`. */
export type Language = AnyCode | `${AnyCode}-${string}`;

/** The language of a page, and the names by which it calls the files. */
export interface ForPage extends ForPrices {
  readonly language?: Language;
  readonly names?: Names;
}

/** How the answer on groups is put on a page, and the names by which that calls the files. */
export interface ForGroupsPage extends ForGroups {
  readonly language?: Language;
  readonly names?: Omit<Names, "certificate">;
}

/**
 * Each answers as the program's command of its name does; explainGroups, groupMargins and groupsPage as `explain`, `margins`
 * and `page` with `--groups`. Out of memory, each throws OutOfMemory.
 */
export interface Auditor {
  read(election: Source): Reading | Refused;
  groups(election: Source, asked?: ForGroups): Verdict;
  prices(election: Source, certificate: Source, asked?: ForPrices): Verdict;
  violation(election: Source, certificate: Source, asked?: ForOutcome): Verdict;
  refutation(election: Source, certificate: Source, asked?: ForRefutation): Verdict;
  both(election: Source, prices: Source, violation: Source, asked?: ForPrices): Both | Refused;
  explain(election: Source, certificate: Source, asked?: ForPrices): Verdict;
  page(election: Source, certificate: Source, asked?: ForPage): Page | Refused;
  margins(election: Source, certificate: Source, asked?: ForOutcome): Written | Refused;
  explainGroups(election: Source, asked?: ForGroups): Verdict;
  groupMargins(election: Source, asked?: ForGroups): Written | Refused;
  groupsPage(election: Source, asked?: ForGroupsPage): Page | Refused;
  tidy(election: Source, certificate: Source): Written | Refused;
  /** The files of a folder by their names. */
  folder(files: Iterable<readonly [string, Source]>, asked?: Partial<Mode>): Report;
}

/** The auditor, once its module is compiled. */
export const auditor = async (): Promise<Auditor> => new AtHand(new Library(await loadedModule()));

/** The same, of files that may still have to be read. */
export async function asyncAuditor(): Promise<AsyncAuditor> {
  return new Later(new Here(new Library(await loadedModule())));
}
