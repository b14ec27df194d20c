"""What each command answers: the text that it prints, and its exit status."""
import os
import stat

from . import conditions, group_figures, groups, refutations, violations
from .certificates import (
    canonical, quoted, read_outcome, read_prices, read_refutation, read_violation, rows_of,
)
from .election import read_election
from .explaining import group_lines, price_lines, refutation_lines, shown_group_lines, violation_lines
from .records import MOST_BYTES, Refused

YES, NO, REFUSED = 0, 1, 2
ELECTION_FAULTS = [
    "NotUtf8", "NoMeta", "NoHeader", "MissingSection", "UnexpectedSection", "MissingKey", "RepeatedKey", "NotApproval",
    "BadMoney", "MissingColumn", "RepeatedColumn", "BadId", "RepeatedProject", "UnknownProject", "TooMany",
]  # fmt: skip
CERTIFICATE_FAULTS = [
    "NotUtf8", "BadHead", "BadRow", "BadNumber", "UnknownVoter", "UnknownProject", "OutOfOrder", "Repeated", "TooMany",
]  # fmt: skip
NO_OUTCOME, READ, TOO_LONG = 17, 18, 19
NAMES = {
    **dict(enumerate(ELECTION_FAULTS, 1)),
    **{NO_OUTCOME: "NoOutcome", READ: "Read", TOO_LONG: "TooLong"},
    **dict(enumerate(CERTIFICATE_FAULTS, 20)),
}
MODE = ["--stable", "--no-exhaustive", "--cover"]
WITH_MODE = ["prices", "refutation", "folder", "both", "explain", "page"]
# What stands in the certificate's place.
GROUPS = "--groups"
# Options that are followed by a word.
VALUED = ["--outcome", "--language", "--satisfaction"]
SAYS_LITTLE = "note: the voter budgets together are less than the limit, so this yes says little"
COSTS_MORE = "note: the funded projects cost more than the limit"


class RefusedInput(Exception):
    """One of the inputs is refused."""

    def __init__(self, name, refusal):
        super().__init__(name, refusal)
        self.line = line(f"refused {name} {refusal.number} {NAMES[refusal.number]} record {refusal.record}")


def line(text):
    return text.encode() + b"\n"


def load(path):
    """The bytes of a file; b"" is a file without bytes, and None stands for standard input."""
    try:
        with open(0 if path is None else path, "rb", closefd=path is not None) as file:
            data = file.read(MOST_BYTES + 1)
    except OSError:
        raise Refused(READ, 0) from None
    if len(data) > MOST_BYTES:
        raise Refused(TOO_LONG, 0)
    return data


def take(name, reads, path, *others):
    """Loads an input and reads it."""
    try:
        return reads(load(path), *others)
    except Refused as refusal:
        raise RefusedInput(name, refusal) from None


def take_outcome(election, path):
    """The funded projects: those of the outcome file where one is given, else those of the column 'selected'."""
    if path is not None:
        return take("outcome", read_outcome, path, election)
    if not election.has_selected:
        raise RefusedInput("election", Refused(NO_OUTCOME, 0))
    return election.funded()


def failed(election, name, culprit):
    """The line of a condition or test with its culprit."""
    words, (voter, project) = [b"failed", name.encode()], culprit
    if voter is not None:
        words.append(b"voter %d" % voter)
    if project is not None:
        words.append(b"project " + election.id(project))
    return b" ".join(words) + b"\n"


def read_line(election):
    end = f"{len(election.funded())} funded" if election.has_selected else "no outcome"
    return line(f"read {len(election.ballots)} voters {len(election.ids)} projects {end}")


def notes(election):
    text = b""
    for key, counted in ((b"num_projects", len(election.ids)), (b"num_votes", len(election.ballots))):
        declared = election.declared.get(key)
        if declared is not None and declared != counted:
            text += line(f"note: {key.decode()} says {declared}, counted {counted}")
    if election.other_selected():
        text += line(f"note: selected is neither 0 nor 1 in {election.other_selected()} projects")
    for column in election.weighing:
        text += line(f"note: column {column.decode()} of VOTES is not used")
    return text


def verdict_on_prices(election, funded, prices, mode):
    failure = conditions.first_failure(conditions.Claim(election, funded, prices), mode)
    if failure:
        return failed(election, *failure), NO
    return line("supported stable" if "--stable" in mode else "supported priceable"), YES


def verdict_on_violation(election, funded, violation):
    failure = violations.first_failure(election, funded, violation)
    return (failed(election, *failure), NO) if failure else (line("violation"), YES)


def verdict_on_refutation(election, funded, refutation, mode=()):
    """The verdict on weights, of all prices; if they don't refute these and stable prices are asked about, on those of them."""
    cover = " cover" if refutation.cover else ""
    failure = refutations.first_failure(election, funded, refutation)
    if not failure:
        return line("unpriceable" + cover), YES
    if "--stable" in mode:
        failure = refutations.first_failure(election, funded, refutation, True)
        if not failure:
            return line("unpriceable stable" + cover), YES
    return failed(election, *failure), NO


def verdict_on_groups(election, funded, measure):
    short = groups.first_short(election, funded, measure == "cost")
    if not short:
        return line(f"satisfied ejr+ by {measure}"), YES
    project, group = short
    return b"failed EJR+ by %s voters %d project %s\n" % (measure.encode(), len(group), election.id(project)), NO


class Commands:
    """Each command, by its name. What 'beside' has is told on standard error, before any hint."""

    def __init__(self, language="en", measure="cost"):
        self.beside, self.language, self.measure = b"", language, measure

    def noted_election(self, path):
        """Takes an election, and has the notes on it told beside the answer, each with the path of its file."""
        election = take("election", read_election, path)
        self.beside = b"".join(os.fsencode(path) + b": " + note for note in notes(election).splitlines(keepends=True))
        return election

    def verdict_on_prices(self, path, election, funded, prices, mode):
        """The verdict on prices. It is noted of a yes that all voter budgets together are less than the limit."""
        text, status = verdict_on_prices(election, funded, prices, mode)
        claim = conditions.Claim(election, funded, prices)
        if status == YES and len(election.ballots) * claim.budget < claim.limit:
            self.beside += os.fsencode(path) + b": " + line(SAYS_LITTLE)
        return text, status

    def read(self, paths, mode, outcome):
        election = take("election", read_election, paths[0] if paths else None)
        return read_line(election) + notes(election), YES

    def prices(self, paths, mode, outcome):
        election = self.noted_election(paths[0])
        funded = take_outcome(election, outcome)
        prices = take("certificate", read_prices, paths[1], election)
        return self.verdict_on_prices(paths[0], election, funded, prices, mode)

    def violation(self, paths, mode, outcome):
        election = self.noted_election(paths[0])
        funded = take_outcome(election, outcome)
        violation = take("certificate", read_violation, paths[1], election)
        return verdict_on_violation(election, funded, violation)

    def refutation(self, paths, mode, outcome):
        election = self.noted_election(paths[0])
        funded = take_outcome(election, outcome)
        refutation = take("certificate", read_refutation, paths[1], election)
        return verdict_on_refutation(election, funded, refutation, mode)

    def groups(self, paths, mode, outcome):
        """The answer without a certificate. It is noted that the funded projects together cost more than the limit."""
        election = self.noted_election(paths[0])
        funded = take_outcome(election, outcome)
        if sum(election.costs[project] for project in funded) > election.limit:
            self.beside += os.fsencode(paths[0]) + b": " + line(COSTS_MORE)
        return verdict_on_groups(election, funded, self.measure)

    def tidy(self, paths, mode, outcome):
        election = take("election", read_election, paths[0])
        return canonical(take("certificate", read_prices, paths[1], election), election), YES

    def both(self, paths, mode, outcome):
        election = take("election", read_election, paths[0])
        funded = take_outcome(election, outcome)
        prices = take("prices", read_prices, paths[1], election)
        violation = take("violation", read_violation, paths[2], election)
        first, first_status = self.verdict_on_prices(paths[0], election, funded, prices, mode)
        second, second_status = verdict_on_violation(election, funded, violation)
        return first + second, max(first_status, second_status)

    def margins(self, paths, mode, outcome):
        election = take("election", read_election, paths[0])
        funded = take_outcome(election, outcome)
        if GROUPS in mode:
            return margins_of_groups(election, funded, self.measure), YES
        prices = take("certificate", read_prices, paths[1], election)
        return margins(conditions.Claim(election, funded, prices)), YES

    def explain(self, paths, mode, outcome):
        """The line of 'prices', 'violation' or 'refutation', an empty line, and what each condition or test comes to; after
        a yes to prices an empty line, and what that says of groups. Or the line of 'groups', and the group that is shown."""
        if GROUPS in mode:
            text, status = self.groups(paths, mode, outcome)
            election = take("election", read_election, paths[0])
            return text + b"\n" + b"".join(map(line, shown_group_lines(election, take_outcome(election, outcome), self.measure))), status
        election = self.noted_election(paths[0])
        funded = take_outcome(election, outcome)
        kind = kind_of(take("certificate", bytes, paths[1]))
        if kind == "violation":
            violation = take("certificate", read_violation, paths[1], election)
            text, status = verdict_on_violation(election, funded, violation)
            lines = violation_lines(election, funded, violation)
        elif kind == "refutation":
            refutation = take("certificate", read_refutation, paths[1], election)
            text, status = verdict_on_refutation(election, funded, refutation, mode)
            lines = refutation_lines(refutations.Weighing(election, funded, refutation, "--stable" in mode))
        else:
            prices = take("certificate", read_prices, paths[1], election)
            text, status = self.verdict_on_prices(paths[0], election, funded, prices, mode)
            claim = conditions.Claim(election, funded, prices)
            lines = [*price_lines(claim, mode), *(["", *group_lines(claim, mode)] if status == YES else [])]
        return text + b"\n" + b"".join(map(line, lines)), status

    def page(self, paths, mode, outcome):
        """Not the HTML, but each text of the page, and each label and class by which something is told, on a line."""
        from .page.nodes import pieces_of
        from .page.whole import Audit
        audit = Audit(*paths, mode=mode, outcome=outcome, measure=self.measure if GROUPS in mode else None)
        return b"".join(line(piece) for _, piece in pieces_of(audit.page(self.language))), audit.status

    def folder(self, paths, mode, outcome):
        try:
            names, files = entries_of(paths[0])
        except Refused:
            return line("refused folder 18 Read record 0"), REFUSED
        text, counts = b"", {YES: 0, NO: 0, REFUSED: 0}
        for name in names:
            text += self.entry(os.path.join(os.fsencode(paths[0]), name), name, files, mode, counts)
        text += line(f"total {len(names)} elections {counts[YES]} yes {counts[NO]} no {counts[REFUSED]} refused")
        return text, REFUSED if counts[REFUSED] else NO if counts[NO] else YES

    def entry(self, path, name, files, mode, counts):
        """The lines of one election of a folder; counts those of its certificates, and all that are refused."""
        text, status = answer_or_refusal(self.read, [path + b".pb"], mode, None)
        text = name + b".pb: " + text.split(b"\n")[0] + b"\n"
        if status == REFUSED:
            counts[REFUSED] += 1
            return text
        for end, work in ((b".prices.csv", self.prices), (b".violation.csv", self.violation)):
            if name + end in files:
                said, status = answer_or_refusal(work, [path + b".pb", path + end], mode, None)
                counts[status] += 1
                text += name + end + b": " + said
        return text


def kind_of(data):
    """What kind of certificate the first record says that it is; any that says nothing is taken as prices."""
    try:
        first = next(rows_of(data))[1]
    except Refused:
        return "prices"
    if first in [[b"pb-violation", b"1"], [b"pb-violation", b"2"]]:
        return "violation"
    return "refutation" if first == [b"pb-refutation", b"1"] else "prices"


def entries_of(path):
    """The names of the elections of a folder in order, without their ending, and its files."""
    try:
        with os.scandir(os.fsencode(path)) as listing:
            files = {entry.name for entry in listing if stat.S_ISREG(entry.stat(follow_symlinks=False).st_mode)}
        for name in files:
            name.decode("utf-8")
    except (OSError, UnicodeDecodeError):
        raise Refused(READ, 0) from None
    return sorted(name[:-3] for name in files if name.endswith(b".pb") and is_entry(name)), files


def is_entry(name):
    return len(name) > 3 and not any(byte < 32 or byte == 127 for byte in name)


def margins(claim):
    """The sums for each project, in grains."""
    grains = 10**6 * claim.prices.denominator
    lines = [b"pb-margins,1", b"grains_per_unit,%d" % grains, b"project,funded,supporters,cost,paid,left,offer"]
    for project in claim.election.projects:
        left, offer = claim.left_of_supporters(project), claim.offer_of_supporters(project)
        sums = [amount * grains for amount in (claim.cost(project), claim.paid(project), left, offer)]
        cells = [project in claim.funded_set, len(claim.election.supporters(project)), *sums]
        lines.append(b",".join([quoted(claim.election.id(project)), *(b"%d" % int(cell) for cell in cells)]))
    return b"".join(each + b"\n" for each in lines)


def margins_of_groups(election, funded, measure):
    """The sums for the group of each unfunded project with a supporter, in millionths times the number of voters."""
    voters = max(1, len(election.ballots))
    lines = [b"pb-groups,1", b"satisfaction," + measure.encode(), b"denominator,%d" % voters,
             b"project,voters,most,need,share,missing"]  # fmt: skip
    for group in group_figures.of_all(election, funded, measure == "cost"):
        need, share = group.need * voters, group.voters * election.limit
        cells = (group.voters, group.most, need, share, need - share)
        lines.append(b",".join([quoted(election.id(group.project)), *(b"%d" % cell for cell in cells)]))
    return b"".join(each + b"\n" for each in lines)


def answer_or_refusal(work, paths, mode, outcome):
    try:
        return work(paths, mode, outcome)
    except RefusedInput as refusal:
        return refusal.line, REFUSED


def words_apart(words):
    """The command, the paths, the options of a mode, the outcome file, and the words behind other options."""
    command, paths, mode, valued = (words[0] if words else "read"), [], set(), {}
    words = iter(words[1:])
    for word in words:
        if word in VALUED:
            valued[word] = next(words)
        elif word == GROUPS or (word in MODE and command in WITH_MODE):
            mode.add(word)
        else:
            paths.append(word)
    outcome = valued.pop("--outcome", None)
    return command, paths, mode, outcome, valued


def answer(words):
    """The text, the status and the notes on standard error for the words of a command line that is understood."""
    command, paths, mode, outcome, others = words_apart(words)
    commands = Commands(others.get("--language", "en"), others.get("--satisfaction", "cost"))
    text, status = answer_or_refusal(getattr(commands, command), paths, mode, outcome)
    return text, status, commands.beside
