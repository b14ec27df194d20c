/* One audit: what the auditor is asked of the files that were read, and what is told of its answer. */

import { ABOUT_PAGE, COMMANDS, isPage } from "../auditor/commands.js";
import { electionOf } from "../auditor/elections.js";
import { groupsOf } from "../auditor/groups.js";
import { NO_OUTCOME } from "../auditor/objects.js";
import { refusedRole } from "../auditor/refusals.js";
import { lineOf, refusedLineOf, saidBy } from "../auditor/says.js";
import { REFUSED } from "../auditor/statuses.js";
import { excerptOf, sumOf } from "./bytes.js";
import type { Auditor } from "../auditor/auditor.js";
import type { Command, Measure, PageCommand, Place, Question, Row } from "../auditor/commands.js";
import type { GroupsAnswer } from "../auditor/groups.js";
import type { Kind } from "../auditor/kinds.js";
import type { GroupsObject, ReadObject, RefusalObject, VerdictObject } from "../auditor/objects.js";
import type { Reply } from "../auditor/replies.js";
import type { Answer, Ending, Files, Order, Refused, Rest, Says, Sums } from "./orders.js";

/** What an answer says, of an election alone or of one certificate. */
function saysOf(object: ReadObject | VerdictObject): Says {
  const said = saidBy(object), { notes } = electionOf(object.election);
  return { line: lineOf(said), said, notes, groups: object.kind === "prices" ? object.groups : null };
}

/** Whether a file is refused since it says of no project whether it is funded. */
const wantsOutcome = ({ input, number }: RefusalObject): boolean => input === "election" && number === NO_OUTCOME;

export class Audit {
  private known: Sums | undefined;

  constructor(
    private readonly auditor: Auditor, private readonly order: Order, private readonly asked: Question,
    private readonly tell: (answer: Answer) => void,
  ) {}

  /**
   * What is told last. An election alone is asked whether a group falls short; where it doesn't say which projects are
   * funded, it is read.
   */
  ending(): Ending {
    const { command } = this.order;
    if (isPage(command)) return this.page(command);
    const reply = this.report(command), { refusal } = reply.beside;
    if (!refusal) return command === "groups" ? this.groups(reply) : this.answer(command, reply);
    return command === "groups" && wantsOutcome(refusal)
      ? this.answer("read", this.report("read")) : this.refused(reply, refusal);
  }

  private report(command: Command, measure: Measure = "cost"): Reply {
    return this.auditor.report(command, { ...this.asked, measure });
  }

  private get sums(): Sums {
    const { election, outcome, certificate } = this.asked.files;
    const sumAt = (place: Place | undefined): string => place ? sumOf(this.auditor.bytes(place)) : "";
    return this.known ??= [election, outcome, certificate].map(sumAt);
  }

  /** What the certificate is. An answer tells it, but a refusal. */
  private kindBy(command: Command, { object, beside }: Reply): Kind {
    const { certificate } = this.asked.files, { certificate: wanted }: Row = COMMANDS[command];
    if (!certificate) return "unknown";
    if (beside.refusal) return this.auditor.kindOf(certificate);
    if (object?.kind === "violation" || object?.kind === "refutation") return object.kind;
    return wanted ? "prices" : "unknown";
  }

  /** Tells an answer early where that is wanted, and answers what then comes last. */
  private withRest(answer: Answer, rest: () => Omit<Rest, "tells">): Ending {
    if (!this.order.isEarly) return { ...answer, ...rest() };
    this.tell(answer);
    return { tells: "rest", ...rest() };
  }

  private answer(command: Command, reply: Reply): Ending {
    const { status, text } = reply, { tellsText }: Row = COMMANDS[command], kind = this.kindBy(command, reply);
    const answer = { tells: "answer", status, kind, sums: this.sums } as const;
    if (tellsText) return { ...answer, text };
    const object = reply.object as ReadObject | VerdictObject;
    const read = object.kind === "election" ? { read: electionOf(object.election) } : {};
    return { ...answer, ...saysOf(object), ...read };
  }

  /** The answer by cost comes first. */
  private groups(reply: Reply): Ending {
    const answerIn = ({ object }: Reply): GroupsAnswer => groupsOf(object as GroupsObject);
    const cost = answerIn(reply), kind = this.kindBy("groups", reply), { status } = reply;
    const answer = { tells: "answer", status, kind, read: cost.election, short: { cost } } as const;
    return this.withRest({ ...answer, ...saysOf(reply.object as GroupsObject) }, () =>
      ({ short: { cost, count: answerIn(this.report("groups", "count")) }, sums: this.sums }));
  }

  /** A page comes first, and then what its answer says. */
  private page(command: PageCommand): Ending {
    const { status, bytes } = this.auditor.page(command, this.asked), about = ABOUT_PAGE[command];
    if (status === REFUSED) {
      const reply = this.report(about);
      return this.refused(reply, reply.beside.refusal!);
    }
    const answer: Answer = { tells: "answer", status, kind: "unknown", sums: this.sums, text: bytes };
    if (command === "groupsPage") return answer;
    return this.withRest(answer, () => {
      const reply = this.report(about);
      return { ...saysOf(reply.object as VerdictObject), kind: this.kindBy(about, reply) };
    });
  }

  /** What is told of a refusal: what was refused, the file that it speaks of, its line, and why. */
  private refused(reply: Reply, fault: RefusalObject): Refused {
    const { beside: { hint } } = reply, { files } = this.order;
    const role = refusedRole(fault.input) as keyof Files, place = this.asked.files[role], line = hint?.line ?? 0;
    return {
      tells: "refused", fault, text: lineOf(refusedLineOf(fault)), file: files[role]?.name ?? "", line,
      sentences: hint?.sentences ?? [], excerpt: place && line > 0 ? excerptOf(this.auditor.bytes(place), line) : "",
      kind: this.kindBy(this.order.command, reply), sums: this.sums,
    };
  }
}
