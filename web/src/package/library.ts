/* What the package answers: the calls of the library on files that are at hand, with what their answers say as facts. */

import { ABOUT_PAGE } from "../auditor/commands.js";
import { Keeper } from "../auditor/keeper.js";
import { decoded } from "../auditor/replies.js";
import { isOutOfMemory, LONGEST_FILE, OutOfMemory } from "../auditor/statuses.js";
import { ENDINGS, entriesOf } from "./entries.js";
import { bothIn, pageIn, readingIn, refusalIn, verdictIn } from "./facts.js";
import { keptOf, reportOf } from "./report.js";
import type { Auditor as Calls } from "../auditor/auditor.js";
import type { Command, PageCommand, Place, Question } from "../auditor/commands.js";
import type { Load } from "../auditor/loaded.js";
import type { BothObject, ReadObject, VerdictObject } from "../auditor/objects.js";
import type { Reply, ToldEntry } from "../auditor/replies.js";
import type { HEADLINES } from "../words/headlines.js";
import type { Entry, EntryRole } from "./entries.js";
import type { Both, Page, Reading, Refused, Report, Verdict, Written } from "./facts.js";
import type { CallName, Handed, HandedFolder, Names } from "./handed.js";

/** What each call answers. */
export interface Answers {
  readonly read: Reading | Refused;
  readonly groups: Verdict;
  readonly prices: Verdict;
  readonly violation: Verdict;
  readonly refutation: Verdict;
  readonly both: Both | Refused;
  readonly explain: Verdict;
  readonly page: Page | Refused;
  readonly margins: Written | Refused;
  readonly explainGroups: Verdict;
  readonly groupMargins: Written | Refused;
  readonly groupsPage: Page | Refused;
  readonly tidy: Written | Refused;
}

/** Of a file that is too long there is enough that it is refused for that. */
const cut = (bytes: Uint8Array): Uint8Array => bytes.subarray(0, LONGEST_FILE + 1);

/** A file in the library's memory. */
const put = (calls: Calls, bytes: Uint8Array): Place => calls.put(cut(bytes));

/** One call: its files, and what is asked of them. */
class Call {
  private readonly asked: Question;

  constructor(private readonly calls: Calls, private readonly given: Handed) {
    const { files, mode, measure, language, names } = given;
    calls.expect(Object.values(files).reduce((sum, bytes) => sum + cut(bytes).length, 0));
    const nameOf = (role: keyof Names): Place => calls.putText(names[role] ?? role);
    const places = Object.entries(files).map(([role, bytes]) => [role, put(calls, bytes)]);
    this.asked = {
      files: Object.fromEntries(places), mode, measure, language: calls.putText(language),
      names: { election: nameOf("election"), outcome: nameOf("outcome"), certificate: nameOf("certificate") },
    };
  }

  /** What a question is answered, or the refusal of a file. */
  answer<Answer>(command: Command, says: (reply: Reply, text: string) => Answer): Answer | Refused {
    const reply = this.calls.report(command, this.asked), { refusal, hint } = reply.beside, text = decoded(reply.text);
    return refusal ? refusalIn(refusal, text, hint) : says(reply, text);
  }

  /** A page, beside which it is asked what its answer says. */
  page(command: PageCommand): Page | Refused {
    const language = this.given.language as keyof typeof HEADLINES;
    return this.answer(ABOUT_PAGE[command], ({ object }) =>
      pageIn(object as VerdictObject, decoded(this.calls.page(command, this.asked).bytes), language));
  }
}

const written = (_: Reply, text: string): Written => ({ status: 0, answer: "written", text });

const verdictBy = (command: CallName) => (call: Call): Verdict => call.answer(command, ({ object, beside }, text) =>
  verdictIn(object as VerdictObject, text, beside.notes));

const SAYS: { readonly [Name in CallName]: (call: Call) => Answers[Name] } = {
  read: call => call.answer("read", ({ object, beside }, text) => readingIn(object as ReadObject, text, beside.notes)),
  groups: verdictBy("groups"),
  prices: verdictBy("prices"),
  violation: verdictBy("violation"),
  refutation: verdictBy("refutation"),
  both: call => call.answer("both", ({ object, beside }, text) => bothIn(object as BothObject, text, beside.notes)),
  explain: verdictBy("explain"),
  page: call => call.page("page"),
  margins: call => call.answer("margins", written),
  explainGroups: verdictBy("explainGroups"),
  groupMargins: call => call.answer("groupMargins", written),
  groupsPage: call => call.page("groupsPage"),
  tidy: call => call.answer("tidy", written),
};

/** The library. No call sees what the one before it left in memory. */
export class Library {
  private readonly keeper: Keeper;

  constructor(load: Load) {
    this.keeper = new Keeper(load);
  }

  /** Whoever runs the library may have no memory for it, and says so by an error of its own. */
  private use<Answer>(does: (calls: Calls) => Answer): Answer {
    try {
      return this.keeper.use(does);
    } catch (error) {
      throw isOutOfMemory(error) ? new OutOfMemory((error as Error).message) : error;
    }
  }

  answer<Name extends CallName>(name: Name, given: Handed): Answers[Name] {
    return this.use(calls => SAYS[name](new Call(calls, given)));
  }

  /** The report on a folder, whose files are had when their turn comes. */
  folder({ files, mode }: HandedFolder<() => Uint8Array>): Report {
    const told = ({ name, roles }: Entry): ToldEntry => this.use(calls => {
      const fileOf = (role: EntryRole): Place => put(calls, files.get(`${name}${ENDINGS[role]}`)!());
      const beside = (role: EntryRole): Place | undefined => roles.includes(role) ? fileOf(role) : undefined;
      const election = fileOf("election"), prices = beside("prices"), violation = beside("violation");
      return calls.entry({ name: calls.putText(name), election, prices, violation }, mode);
    });
    const kept = entriesOf([...files.keys()]).map(entry => keptOf(told(entry)));
    return reportOf(kept, total => this.use(calls => calls.ofTotal(total)));
  }
}
