"""What the program's help says: its commands, with the options, the inputs and the exit statuses of each. It is read here by other
means than in packaging/man_and_completions.py: a command is the first word of a line of 'Commands:', and an option a word with '-'
before the text of a line of 'Options:'."""
import re

from common import ran

# Words of a usage line that stand for no file.
NO_FILES = ("OPTIONS", "COMMAND")


def section(text, heading):
    match = re.search(rf"^{heading}:\n((?:  .*\n)+)", text, re.MULTILINE)
    return match[1].splitlines() if match else []


def option_words(text):
    """The options of a help text, each with the name of its value or ''."""
    found = {}
    for line in section(text, "Options"):
        if re.match(r" {2,6}-", line):
            term = re.split(r"  +", line.strip())[0]
            value = re.search(r"<(\w+)>", term)
            found |= {word: value[1] if value else "" for word in re.findall(r"--?\w[\w-]*", term)}
    return found


def inputs_in(text):
    """The files that a command reads, by its help text: its arguments, and an outcome where it has that option."""
    usage = re.search(r"^Usage: (.*)$", text, re.MULTILINE)[1]
    outcome = ["outcome"] if "--outcome" in option_words(text) else []
    return [word.lower() for word in re.findall(r"[<\[](\w+)[>\]]", usage) if word not in NO_FILES] + outcome


def statuses_in(text):
    """The exit statuses that a help text names."""
    told = re.search(r"^Exit statuses: (.*?)\.\n", text, re.MULTILINE | re.DOTALL)
    return [int(status) for status in re.findall(r"(?:^|,\s)(\d+) ", told[1])] if told else []


class Helps:
    """By command, and by '' for the program: the help text, and its options."""

    def __init__(self, program):
        top = ran(program, "--help").stdout
        self.names = [line.split()[0] for line in section(top, "Commands")]
        self.texts = {"": top}
        for name in self.names:
            # The command `help` takes no options.
            self.texts[name] = ran(program, *(["help", "help"] if name == "help" else [name, "--help"])).stdout
        self.options = {name: option_words(text) for name, text in self.texts.items()}
        self.sets = {name: set(options) for name, options in self.options.items()}
        self.valued = [(n, o) for n, options in self.options.items() for o, value in options.items() if value]
        self.inputs = {name: inputs_in(self.texts[name]) for name in self.names}
        self.statuses = {name: statuses_in(self.texts[name]) for name in self.names}
