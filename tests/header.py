"""What a header in C declares: functions that answer a uint8_t, structs, and the numbers of its enums."""
import re

FUNCTION = re.compile(r"^(static inline )?(?:uint8_t )?(\w+(?: \*?\w+)?)\(([^)]*)\)", re.MULTILINE)


def on_one_line(text):
    return " ".join(text.split())


def without_comments(text):
    return re.sub(r"/\*.*?\*/", "", text, flags=re.DOTALL)


def functions(text):
    """The parameters of each function, by its name: of those that a library exports, and of those that are inline. Ahead of the name
    stands what it answers, where that is no uint8_t."""
    exported, inline = {}, {}
    for kind, name, takes in FUNCTION.findall(without_comments(text)):
        (inline if kind else exported)[name] = on_one_line(takes)
    return exported, inline


def structs(text):
    """The fields of each struct."""
    return {name: on_one_line(fields) for fields, name in re.findall(r"typedef struct \{([^}]*)\} (\w+);", without_comments(text))}


def numbers(text):
    """The numbers of all enums."""
    found = {}
    for listed in re.findall(r"enum \{([^}]*)\}", without_comments(text)):
        at = -1
        for name, given in re.findall(r"(\w+)(?: = (\d+))?", listed):
            at = found[name] = int(given or at + 1)
    return found
