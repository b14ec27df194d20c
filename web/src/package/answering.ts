/* Takes what is handed in, and has it answered once it is read, here or in a worker. */

import { ENDINGS, entriesOf } from "./entries.js";
import { folderIn, handedIn } from "./handed.js";
import { takenLater, withEach, withWanted } from "./sources.js";
import type { Report } from "./facts.js";
import type { CallName, Handed, HandedFolder } from "./handed.js";
import type { AsyncAuditor } from "./later.js";
import type { Answers, Library } from "./library.js";
import type { Taken } from "./sources.js";

/** What answers questions on files that were taken. */
export interface Answerer {
  answer<Name extends CallName>(name: Name, given: Handed<Taken>): Promise<Answers[Name]>;
  folder(given: HandedFolder<Taken>): Promise<Report>;
}

/** The names of the files of a folder that are audited. */
export function auditedIn(names: Iterable<string>): ReadonlySet<string> {
  const entries = entriesOf([...names]);
  return new Set(entries.flatMap(({ name, roles }) => roles.map(role => `${name}${ENDINGS[role]}`)));
}

/** The library itself, as soon as the files are read. */
export class Here implements Answerer {
  constructor(private readonly library: Library) {}

  async answer<Name extends CallName>(name: Name, given: Handed<Taken>): Promise<Answers[Name]> {
    return this.library.answer(name, await withEach(given, file => file.bytes()));
  }

  async folder(given: HandedFolder<Taken>): Promise<Report> {
    const audited = auditedIn(given.files.keys());
    return this.library.folder(await withWanted(given, name => audited.has(name), async file => {
      const bytes = await file.bytes();
      return () => bytes;
    }));
  }
}

/** Takes what is handed in, and has it answered. */
export class Later implements AsyncAuditor {
  constructor(private readonly answerer: Answerer) {}

  private async answer<Name extends CallName>(name: Name, handed: readonly unknown[]): Promise<Answers[Name]> {
    return this.answerer.answer(name, handedIn(name, handed, takenLater));
  }

  read(...handed: unknown[]): Promise<Answers["read"]> {
    return this.answer("read", handed);
  }

  groups(...handed: unknown[]): Promise<Answers["groups"]> {
    return this.answer("groups", handed);
  }

  prices(...handed: unknown[]): Promise<Answers["prices"]> {
    return this.answer("prices", handed);
  }

  violation(...handed: unknown[]): Promise<Answers["violation"]> {
    return this.answer("violation", handed);
  }

  refutation(...handed: unknown[]): Promise<Answers["refutation"]> {
    return this.answer("refutation", handed);
  }

  both(...handed: unknown[]): Promise<Answers["both"]> {
    return this.answer("both", handed);
  }

  explain(...handed: unknown[]): Promise<Answers["explain"]> {
    return this.answer("explain", handed);
  }

  page(...handed: unknown[]): Promise<Answers["page"]> {
    return this.answer("page", handed);
  }

  margins(...handed: unknown[]): Promise<Answers["margins"]> {
    return this.answer("margins", handed);
  }

  explainGroups(...handed: unknown[]): Promise<Answers["explainGroups"]> {
    return this.answer("explainGroups", handed);
  }

  groupMargins(...handed: unknown[]): Promise<Answers["groupMargins"]> {
    return this.answer("groupMargins", handed);
  }

  groupsPage(...handed: unknown[]): Promise<Answers["groupsPage"]> {
    return this.answer("groupsPage", handed);
  }

  tidy(...handed: unknown[]): Promise<Answers["tidy"]> {
    return this.answer("tidy", handed);
  }

  async folder(...handed: unknown[]): Promise<Report> {
    return this.answerer.folder(folderIn(handed, takenLater));
  }
}
