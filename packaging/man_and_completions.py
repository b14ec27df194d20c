#!/usr/bin/env python3
"""Writes the man page and the completions of bash, zsh and fish into a folder, by what the program's own help says.

No command and no option is named here: they come from `PROGRAM --help`, and from `PROGRAM help COMMAND` for each command
that it lists.

usage: packaging/man_and_completions.py PROGRAM FOLDER     writes FOLDER/pbaudit.1, pbaudit.bash, _pbaudit and pbaudit.fish
"""
import re
import subprocess
import sys
from dataclasses import dataclass
from pathlib import Path

NAME = "pbaudit"


@dataclass
class Entry:
    """A line of help: a command, an argument or an option, and what is said of it."""

    short: str  # as -h, or empty
    long: str  # as --help, or the name of a command or an argument
    value: str  # what an option takes, as FILE, or empty
    about: str

    @property
    def words(self):
        return [word for word in (self.short, self.long) if word]

    @property
    def choices(self):
        """The words of which an option takes one: its text ends with them, as in "in this language: en, pl or de"."""
        listed = re.search(r": (\w+(?:, \w+)* or \w+)$", self.about) if self.value else None
        return re.split(", | or ", listed[1]) if listed else []


@dataclass
class Help:
    """The help of the program or of a command, in its parts."""

    about: str
    usage: str
    commands: list
    arguments: list
    options: list
    notes: list  # paragraphs, each a list of lines


class BadHelp(Exception):
    pass


# Reading help.


def paragraphs_of(text):
    found = [[]]
    for line in text.splitlines():
        if line.strip():
            found[-1].append(line.rstrip())
        elif found[-1]:
            found.append([])
    return [p for p in found if p]


def entry_of(line):
    """The entry at which a line begins: its term stands behind two blanks or more, and its text behind two more."""
    term, _, about = line.strip().partition("  ")
    match = re.fullmatch(r"(?:(-\w)(?:, )?)?(--[\w-]+)?(?: [<\[](\w+)[>\]])?", term)
    if match and (match[1] or match[2]):
        return Entry(match[1] or "", match[2] or "", match[3] or "", about.strip())
    if term.startswith("-"):
        raise BadHelp(f"no option is {term!r}")
    return Entry("", term.removesuffix("...").strip("<>[]"), "", about.strip())


def entries_of(lines):
    """The entries of a section. Where a text goes on, or begins, on a line of its own, it is indented by more."""
    found = []
    for line in lines:
        indent = len(line) - len(line.lstrip())
        if indent <= 2 or (line.strip().startswith("--") and indent <= 6):
            found.append(entry_of(line))
        elif found:
            found[-1].about = f"{found[-1].about} {line.strip()}".strip()
        else:
            raise BadHelp(f"a section begins with {line!r}")
    return found


def read_help(*words):
    done = subprocess.run(words, stdin=subprocess.DEVNULL, capture_output=True, text=True, timeout=60, check=False)
    if done.returncode != 0:
        raise BadHelp(f"{' '.join(words)} ended with status {done.returncode}")
    about, usage, sections, notes = [], "", {}, []
    for paragraph in paragraphs_of(done.stdout):
        heading = paragraph[0]
        if heading.startswith("Usage: "):
            usage = heading.removeprefix("Usage: ")
        elif not usage:
            about += paragraph
        elif heading in ("Commands:", "Arguments:", "Options:") and not notes:
            sections[heading] = entries_of(paragraph[1:])
        else:
            notes.append(paragraph)
    if not usage:
        raise BadHelp(f"{' '.join(words)} has no usage")
    parts = [sections.get(heading, []) for heading in ("Commands:", "Arguments:", "Options:")]
    return Help(" ".join(about), usage, *parts, notes)


def read_all(program):
    """The help of the program, and of each of its commands."""
    top = read_help(program, "--help")
    if not top.commands or not top.options:
        raise BadHelp(f"{program} --help lists no commands or no options")
    commands = {entry.long: read_help(program, "help", entry.long) for entry in top.commands}
    for name, command in commands.items():
        # So that a completion needn't count arguments.
        if len({kind_of(argument.long) for argument in command.arguments}) > 1:
            raise BadHelp(f"{name} takes folders and files")
    return top, commands


def kind_of(name):
    """What stands for an argument or a value: commands, folders or files."""
    return {"COMMAND": "command", "FOLDER": "folder"}.get(name, "file")


# The man page.


def roff(text):
    """A line of text as roff has it."""
    escaped = text.replace("\\", "\\e")
    for sign, name in (("-", "\\-"), ("'", "\\(aq"), ("`", "\\(ga"), ("^", "\\(ha"), ("~", "\\(ti")):
        escaped = escaped.replace(sign, name)
    return "\\&" + escaped if escaped.startswith(".") else escaped


def roff_entries(entries):
    lines = []
    for entry in entries:
        term = ", ".join(f"\\fB{roff(word)}\\fR" for word in entry.words)
        value = f" \\fI{roff(entry.value)}\\fR" if entry.value else ""
        lines += [".TP", term + value, roff(entry.about)]
    return lines


def roff_notes(notes):
    """Paragraphs, in which lines that are indented stay as they are."""
    lines = []
    for paragraph in notes:
        lines.append(".PP")
        inside = False
        for line in paragraph:
            if line.startswith("  ") != inside:
                inside = not inside
                lines += [".RS 2", ".nf"] if inside else [".fi", ".RE"]
            lines.append(roff(line.removeprefix("  ")))
        if inside:
            lines += [".fi", ".RE"]
    return lines


# What no help says: the names by which the files of an election go together, and where more is written.
FILES = [("NAME.pb", "an election, in the format of Pabulib"),
         ("NAME.prices.csv", "a price certificate for it"),
         ("NAME.violation.csv", "a violation certificate for it"),
         ("NAME.refutation.csv", "a refutation of all prices for it"),
         ("NAME.outcome.csv", "an outcome, in place of the one that the election states")]
SEE_ALSO = ["The formats of these files are in docs/FORMATS.md of the repository of pbaudit, the conditions and tests in",
            "docs/CONDITIONS.md, and what is proved of the answers in docs/STATEMENT.md. Elections in the format of Pabulib:",
            "https://pabulib.org/"]


def split_notes(notes):
    """The paragraphs that go to sections of their own, by their heading in the help, and the others."""
    headings = {"Exit statuses:": "EXIT STATUS", "Examples:": "EXAMPLES"}
    own = {headings[paragraph[0]]: [paragraph[1:]] for paragraph in notes if paragraph[0] in headings}
    return own, [paragraph for paragraph in notes if paragraph[0] not in headings]


def man_page(version, top, commands):
    own, description = split_notes(top.notes)
    lines = [f'.TH {NAME.upper()} 1 "" "{roff(version)}" "User Commands"', ".nh", ".ad l"]
    lines += [".SH NAME", f"{NAME} \\- {roff(top.about)}"]
    lines += [".SH SYNOPSIS", ".nf", roff(top.usage)]
    lines += [roff(command.usage) for command in commands.values()]
    lines += [".fi", ".SH DESCRIPTION"] + roff_notes(description)
    lines += [".SH OPTIONS"] + roff_entries(top.options)
    lines.append(".SH COMMANDS")
    for name, command in commands.items():
        lines += [f".SS {roff(name)}", f"{roff(command.about)}.", ".PP", f"\\fB{roff(command.usage)}\\fR"]
        lines += roff_entries(command.arguments) + roff_entries(command.options) + roff_notes(command.notes)
    lines += [".SH EXIT STATUS"] + roff_notes(own["EXIT STATUS"]) + [".SH FILES"]
    for name, about in FILES:
        lines += [".TP", f"\\fI{roff(name)}\\fR", roff(about)]
    lines += [".SH EXAMPLES"] + roff_notes(own["EXAMPLES"]) + [".SH SEE ALSO"] + [roff(line) for line in SEE_ALSO]
    return "\n".join(lines) + "\n"


# The completions. A command is the first word that is no option.


def in_quotes(text):
    return "'" + text.replace("'", "'\\''") + "'"


def bash_cases(commands, words_of):
    """A line for each command: what words of an option list it has."""
    return [f"        {name}) printf '%s\\n' {' '.join(words_of(c))} ;;" for name, c in commands.items() if words_of(c)]


BASH = """\
# Completion of pbaudit in bash. It is made of the program's help.
_pbaudit_options() {
    case $1 in
        '') printf '%s\\n' @TOP@ ;;
@OPTIONS@
    esac
}

# What stands for a word behind this option of a command, or for an argument of it.
_pbaudit_kind() {
    case "$1 $2" in
@KINDS@
        *) printf file ;;
    esac
}

_pbaudit() {
    local word=${COMP_WORDS[COMP_CWORD]} before=${COMP_WORDS[COMP_CWORD - 1]} command='' kind='' closed='' i
    for ((i = 1; i < COMP_CWORD; i++)); do
        case ${COMP_WORDS[i]} in
            --) closed=yes ;;
            -*) ;;
            *) [ -n "$command" ] || command=${COMP_WORDS[i]} ;;
        esac
    done
    # An option and its value may be one word: --option=value.
    if [ "$word" = = ]; then
        word=''
    elif [ "$before" = = ]; then
        before=${COMP_WORDS[COMP_CWORD - 2]}
    fi
    COMPREPLY=()
    case $command:$before in
        @VALUED@) kind=$(_pbaudit_kind "$command" "$before") ;;
    esac
    if [ -z "$kind" ]; then
        if [ -z "$closed" ] && [[ $word == -* ]]; then
            mapfile -t COMPREPLY < <(compgen -W "$(_pbaudit_options "$command")" -- "$word")
            return
        fi
        kind='command'
        [ -z "$command" ] || kind=$(_pbaudit_kind "$command" '')
    fi
    case $kind in
        command) mapfile -t COMPREPLY < <(compgen -W '@COMMANDS@' -- "$word") ;;
        'words '*) mapfile -t COMPREPLY < <(compgen -W "${kind#words }" -- "$word") ;;
        folder) compopt -o filenames 2> /dev/null || true; mapfile -t COMPREPLY < <(compgen -d -- "$word") ;;
        *) compopt -o filenames 2> /dev/null || true; mapfile -t COMPREPLY < <(compgen -f -- "$word") ;;
    esac
}
complete -F _pbaudit pbaudit
"""


def all_words(help_):
    return [word for option in help_.options for word in option.words]


def bash_completion(top, commands):
    kinds, valued = [], []
    for name, command in commands.items():
        for entry in command.options:
            for word in entry.words if entry.value else []:
                valued.append(f"{name}:{word}")
                kind = in_quotes(f"words {' '.join(entry.choices)}") if entry.choices else kind_of(entry.value)
                kinds.append((f"{name} {word}", kind))
        if command.arguments:
            kinds.append((f"{name} ", kind_of(command.arguments[0].long)))
    lines = [f"        '{case}') printf {kind} ;;" for case, kind in kinds if kind != "file"]
    text = BASH.replace("@TOP@", " ".join(all_words(top))).replace("@COMMANDS@", " ".join(commands))
    text = text.replace("@OPTIONS@", "\n".join(bash_cases(commands, all_words)))
    return text.replace("@KINDS@", "\n".join(lines)).replace("@VALUED@", " | ".join(valued) or "''")


def zsh_text(text):
    """A description inside square brackets."""
    return re.sub(r"([\[\]\\])", r"\\\1", text)


def zsh_value(option):
    """What stands for the value of an option."""
    return f"({' '.join(option.choices)})" if option.choices else zsh_action(kind_of(option.value))


def zsh_action(kind):
    return {"command": "_pbaudit_commands", "folder": "_files -/", "file": "_files"}[kind]


def zsh_options(options):
    lines = []
    for option in options:
        # A value stands behind '=' or is the next word.
        sign = "=" if option.value else ""
        value = f":{option.value}:{zsh_value(option)}" if option.value else ""
        text = in_quotes(f"{sign}[{zsh_text(option.about)}]{value}")
        # Help and the version stand alone.
        alone = "'(- *)'" if option.short else ""
        words = "{" + ",".join(option.words) + "}" if len(option.words) > 1 else option.words[0]
        lines.append(alone + words + text)
    return lines


def zsh_completion(top, commands):
    lines = ["#compdef pbaudit", "# Completion of pbaudit in zsh. It is made of the program's help.", ""]
    lines += ["_pbaudit_commands() {", "  local -a commands", "  commands=("]
    lines += ["    " + in_quotes(f"{name}:{command.about}") for name, command in commands.items()]
    lines += ["  )", "  _describe -t commands command commands", "}", ""]
    lines += ["_pbaudit() {", "  local curcontext=$curcontext state line", "  typeset -A opt_args"]
    top_specs = zsh_options(top.options) + ["'1:command:_pbaudit_commands'", "'*::argument:->arguments'"]
    lines += ["  _arguments -C \\", " \\\n".join("    " + spec for spec in top_specs)]
    lines += ["  [[ $state == arguments ]] || return", "  curcontext=${curcontext%:*}-$line[1]:", "  case $line[1] in"]
    for name, command in commands.items():
        specs = zsh_options(command.options)
        for place, entry in enumerate(command.arguments, 1):
            specs.append(in_quotes(f"{place}:{entry.long}:{zsh_action(kind_of(entry.long))}"))
        body = " \\\n".join("        " + spec for spec in specs)
        lines += [f"    {name})", "      _arguments \\", body, "      ;;"]
    lines += ["  esac", "}", "", '_pbaudit "$@"']
    return "\n".join(lines) + "\n"


FISH = """\
# Completion of pbaudit in fish. It is made of the program's help.
# Whether the command is this one; without one, whether there is none yet.
function __pbaudit_command_is
    set -l words (commandline -opc)
    set -e words[1]
    for word in $words
        if not string match -q -- '-*' $word
            test "$word" = "$argv[1]"
            return
        end
    end
    test -z "$argv[1]"
end
complete -c pbaudit -f
"""


def fish_quotes(text):
    return "'" + text.replace("\\", "\\\\").replace("'", "\\'") + "'"


def fish_takes(kind, commands):
    if kind == "command":
        return f"-f -a {fish_quotes(' '.join(commands))}"
    return "-f -a '(__fish_complete_directories)'" if kind == "folder" else "-F"


def fish_option(condition, option, commands):
    words = f"complete -c pbaudit -n {fish_quotes(condition)}"
    if option.short:
        words += f" -s {option.short[1:]}"
    if option.long:
        words += f" -l {option.long[2:]}"
    if option.value:
        takes = f"-f -a {fish_quotes(' '.join(option.choices))}" if option.choices else fish_takes(kind_of(option.value), commands)
        words += f" -r {takes}"
    return f"{words} -d {fish_quotes(option.about)}"


def fish_completion(top, commands):
    none = "__pbaudit_command_is"
    lines = [fish_option(none, option, commands) for option in top.options]
    for name, command in commands.items():
        lines.append(f"complete -c pbaudit -n {none} -a {name} -d {fish_quotes(command.about)}")
    for name, command in commands.items():
        this = f"__pbaudit_command_is {name}"
        if command.arguments:
            takes = fish_takes(kind_of(command.arguments[0].long), commands)
            lines.append(f"complete -c pbaudit -n {fish_quotes(this)} {takes}")
        lines += [fish_option(this, option, commands) for option in command.options]
    return FISH + "\n".join(lines) + "\n"


def main():
    if len(sys.argv) != 3:
        print(__doc__.strip().splitlines()[-1], file=sys.stderr)
        return 3
    program, folder = str(Path(sys.argv[1]).resolve()), Path(sys.argv[2])
    try:
        version = subprocess.run([program, "--version"], capture_output=True, text=True, check=True).stdout.strip()
        top, commands = read_all(program)
    except (BadHelp, OSError, subprocess.SubprocessError) as error:
        print(f"man_and_completions: {error}", file=sys.stderr)
        return 1
    folder.joinpath("pbaudit.1").write_text(man_page(version, top, commands), encoding="utf-8")
    folder.joinpath("pbaudit.bash").write_text(bash_completion(top, commands), encoding="utf-8")
    folder.joinpath("_pbaudit").write_text(zsh_completion(top, commands), encoding="utf-8")
    folder.joinpath("pbaudit.fish").write_text(fish_completion(top, commands), encoding="utf-8")
    return 0


if __name__ == "__main__":
    sys.exit(main())
