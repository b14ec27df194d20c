/* The calls of an auditor of files that may still have to be read, here or in a worker. */

import type { Mode } from "../auditor/statuses.js";
import type { Both, Page, Reading, Refused, Report, Verdict, Written } from "./facts.js";
import type { ForGroups, ForGroupsPage, ForOutcome, ForPage, ForPrices, ForRefutation } from "./index.js";
import type { AnySource } from "./sources.js";

/** What is asked, with an outcome that may still have to be read. */
export type LaterFor<Asked extends ForOutcome> = Omit<Asked, "outcome"> & { readonly outcome?: AnySource };

/**
 * Each answers as the call of its name does, once the files are read. A TypeError comes before any is; where one can't
 * be read, what its reader says.
 */
export interface AsyncAuditor {
  read(election: AnySource): Promise<Reading | Refused>;
  groups(election: AnySource, asked?: LaterFor<ForGroups>): Promise<Verdict>;
  prices(election: AnySource, certificate: AnySource, asked?: LaterFor<ForPrices>): Promise<Verdict>;
  violation(election: AnySource, certificate: AnySource, asked?: LaterFor<ForOutcome>): Promise<Verdict>;
  refutation(election: AnySource, certificate: AnySource, asked?: LaterFor<ForRefutation>): Promise<Verdict>;
  both(
    election: AnySource, prices: AnySource, violation: AnySource, asked?: LaterFor<ForPrices>,
  ): Promise<Both | Refused>;
  explain(election: AnySource, certificate: AnySource, asked?: LaterFor<ForPrices>): Promise<Verdict>;
  page(election: AnySource, certificate: AnySource, asked?: LaterFor<ForPage>): Promise<Page | Refused>;
  margins(election: AnySource, certificate: AnySource, asked?: LaterFor<ForOutcome>): Promise<Written | Refused>;
  explainGroups(election: AnySource, asked?: LaterFor<ForGroups>): Promise<Verdict>;
  groupMargins(election: AnySource, asked?: LaterFor<ForGroups>): Promise<Written | Refused>;
  groupsPage(election: AnySource, asked?: LaterFor<ForGroupsPage>): Promise<Page | Refused>;
  tidy(election: AnySource, certificate: AnySource): Promise<Written | Refused>;
  /** The files of a folder by their names. Those that aren't audited aren't read. */
  folder(files: Iterable<readonly [string, AnySource]>, asked?: Partial<Mode>): Promise<Report>;
}

/** An auditor in a worker. Once it is closed, calls that are open and later ones are rejected. */
export interface WorkerAuditor extends AsyncAuditor {
  close(): void;
}
