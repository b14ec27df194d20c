/* The calls of an auditor of files that are at hand. */

import { bytesOf, folderIn, handedIn } from "./handed.js";
import type { Report } from "./facts.js";
import type { CallName } from "./handed.js";
import type { Auditor } from "./index.js";
import type { Answers, Library } from "./library.js";

/** The auditor of files that are at hand. */
export class AtHand implements Auditor {
  constructor(private readonly library: Library) {}

  private answer<Name extends CallName>(name: Name, handed: readonly unknown[]): Answers[Name] {
    return this.library.answer(name, handedIn(name, handed, bytesOf));
  }

  read(...handed: unknown[]): Answers["read"] {
    return this.answer("read", handed);
  }

  groups(...handed: unknown[]): Answers["groups"] {
    return this.answer("groups", handed);
  }

  prices(...handed: unknown[]): Answers["prices"] {
    return this.answer("prices", handed);
  }

  violation(...handed: unknown[]): Answers["violation"] {
    return this.answer("violation", handed);
  }

  refutation(...handed: unknown[]): Answers["refutation"] {
    return this.answer("refutation", handed);
  }

  both(...handed: unknown[]): Answers["both"] {
    return this.answer("both", handed);
  }

  explain(...handed: unknown[]): Answers["explain"] {
    return this.answer("explain", handed);
  }

  page(...handed: unknown[]): Answers["page"] {
    return this.answer("page", handed);
  }

  margins(...handed: unknown[]): Answers["margins"] {
    return this.answer("margins", handed);
  }

  explainGroups(...handed: unknown[]): Answers["explainGroups"] {
    return this.answer("explainGroups", handed);
  }

  groupMargins(...handed: unknown[]): Answers["groupMargins"] {
    return this.answer("groupMargins", handed);
  }

  groupsPage(...handed: unknown[]): Answers["groupsPage"] {
    return this.answer("groupsPage", handed);
  }

  tidy(...handed: unknown[]): Answers["tidy"] {
    return this.answer("tidy", handed);
  }

  folder(...handed: unknown[]): Report {
    // Text has its bytes made when its turn comes, so that not those of all files are there at once.
    return this.library.folder(folderIn(handed, (source, name) => {
      bytesOf(source, name);
      return () => bytesOf(source, name);
    }));
  }
}
