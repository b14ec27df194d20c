"""What tables/border.txt says of the border between the proved C library and what calls it, place by place: sets of lines, as those of
border_places.py, so that what differs is what stands in one of the two."""
import ctypes
import re

_SIMPLE = {"uint8_t": ctypes.c_uint8, "uint32_t": ctypes.c_uint32, "uint64_t": ctypes.c_uint64, "size_t": ctypes.c_size_t,
           "bool": ctypes.c_bool}  # fmt: skip
_CERTIFICATES = ("prices", "violation", "refutation", "certificate")


def numbered(group, number, name):
    """The line of a number. A name in capitals says by itself what it is one of."""
    return f"{name} = {number}" if re.fullmatch(r"_?[A-Z][A-Z0-9_]*", name) else f"{group}: {number} {name}"


def lines_in_c(items):
    """Calls, or structs, of which each has types and names, as C has them."""
    return {f"{name}({', '.join(' '.join(each) for each in parts)})" for name, parts in items.items()}


def takes(question, what):
    return f"{question} takes {', '.join(sorted(what)) or 'none'}"


def answers(question, what):
    return f"{question} answers {what}"


def ends(name, what):
    return f"{name} ends with {what}"


def checks(name, kinds):
    return f"{name} checks {', '.join(kinds)}"


def hands(name, words):
    return f"{name} is handed {', '.join(f'{at} {what}' for at, what in words)}"


def list_of(text):
    return [each.strip() for each in text.split(",") if each.strip()]


def parts_of(text):
    """The types and names of parameters, or of fields, in C."""
    return [tuple(each.replace("*", "* ").rsplit(" ", 1)) for each in list_of(text)]


def shown_in_python(kind):
    """A type of ctypes, by its name; size_t and uint64_t are one. Of a struct, and of room for one, it is how long that is, and where it
    may lie."""
    if hasattr(kind, "contents"):
        return f"{shown_in_python(kind._type_)} *"
    if issubclass(kind, (ctypes.Structure, ctypes.Array)):
        return f"{ctypes.sizeof(kind)} bytes at {ctypes.alignment(kind)}"
    return kind.__name__


def shown_in_javascript(kind, _part):
    """How WebAssembly takes a type, with addresses of 64 bits."""
    return "bigint" if kind.endswith("*") or kind in ("size_t", "uint64_t") else "number"


# What a parameter of C is for the addon for Node, by its type; of an address with a length behind it, the two.
_OF_ADDON = {"uint8_t": "BYTE", "bool": "BOOL", "const uint8_t * size_t": "BYTES", "uint8_t * size_t": "ROOM", "size_t *": "NEEDED",
             "uint8_t *": "KIND", "pbaudit_facts *": "FACTS", "pbaudit_total *": "TOTAL", "const pbaudit_total *": "GIVEN_TOTAL"}  # fmt: skip


def kinds_for_addon(parts):
    """What the parameters of a call are, with their types."""
    at = 0
    while at < len(parts):
        kinds = [kind for kind, name in parts[at:at + 2] if at + 1 < len(parts)]
        has_length = kinds[1:] == ["size_t"] and f"{kinds[0]} size_t" in _OF_ADDON
        types = kinds if has_length else [parts[at][0]]
        yield _OF_ADDON[" ".join(types)], types
        at += len(types)


def types_with(structs):
    """The types of C as Python has them, by name."""
    found = {**_SIMPLE}
    for name, fields in structs.items():
        found[name] = type(name, (ctypes.Structure,), {"_fields_": [(field, found[kind]) for kind, field in fields]})
    found |= {f"{name} *": ctypes.POINTER(kind) for name, kind in found.items()}
    found |= {f"const {name} *": found[f"{name} *"] for name in structs}
    return found | {"const uint8_t *": ctypes.c_char_p}


def groups_in(text):
    """The rows of each group, by its columns. What is indented goes with the row above."""
    found = {}
    for part in text.split("\n== ")[1:]:
        name, columns, *lines = [line for line in part.splitlines() if line and not line.startswith("#")]
        rows = found[name] = []
        for line in lines:
            if line.startswith(" "):
                rows[-1]["parameters"] += line
            else:
                cells = dict(zip(re.split(" {2,}", columns), re.split(" {2,}", line), strict=True))
                rows.append({"parameters": "", **cells})
    return found


class Border:
    """The table."""

    def __init__(self, text):
        self.groups = groups_in(text)
        self.calls = {row["name"]: parts_of(row["parameters"]) for row in self.groups["calls"]}
        self.structs = {row["name"]: parts_of(row["fields"]) for row in self.groups["structs"]}
        self.types = types_with(self.structs)

    def wanted(self, place):
        """What a place has to say."""
        more = {"header": self._header, "crates": self._crates, "python": self._python, "web/src": self._web, "web/addon.c": self._addon,
                "tests": self._tests}  # fmt: skip
        return self._numbers(place) | (more[place]() if place in more else set())

    def _numbers(self, place):
        return {numbered(group, row["number"], row[place]) for group, rows in self.groups.items() for row in rows
                if "number" in row and row.get(place, "-") != "-"}  # fmt: skip

    def _header(self):
        asked = {numbered("questions", row["number"], row["name"].upper()) for row in self.groups["questions"]}
        return lines_in_c(self.calls) | lines_in_c(self.structs) | asked | self._takes() | self._ends()

    def _crates(self):
        return lines_in_c(self.calls) | lines_in_c(self.structs) | self._asked() | self._takes("switches", "stable")

    def _python(self):
        return self._called("python", self._in_python) | self._asked() | self._takes("switches", "stable") | self._answers()

    def _web(self):
        rooms = {f"{name} takes {ctypes.sizeof(self.types[f'pbaudit_{name}'])} bytes" for name in ("facts", "total")}
        return self._called("web/src", shown_in_javascript) | self._asked() | self._takes("election", *_CERTIFICATES) | self._answers() | rooms

    def _addon(self):
        """The calls of the scripts: what their words are checked for, and how these are handed over."""
        calls = {row["name"]: self.calls[row["name"]] for row in self.groups["calls"] if row["web/src"] != "-"}
        handed = {name: ["at" if kind.endswith("*") else "number" for kind, _ in parts] for name, parts in calls.items()}
        return {checks(name, (kind for kind, _ in kinds_for_addon(parts))) for name, parts in calls.items()} | {
            hands(name, enumerate(words)) for name, words in handed.items()}

    def _tests(self):
        structs = {name: [(self._in_python(*each), each[1]) for each in fields] for name, fields in self.structs.items()}
        return self._called("tests", self._in_python) | lines_in_c(structs) | {*self._kinds()}

    def _kinds(self):
        """The kind of the certificate of each question that takes one. A page takes what is explained."""
        numbers = {row["crates"].lower(): row["number"] for row in self.groups["kinds"]}
        taken = {row["name"]: [each for each in list_of(row["takes"]) if each in _CERTIFICATES] for row in self.groups["questions"]}
        for name, kinds in {**taken, "page": taken["explain"]}.items():
            if len(kinds) == 1:
                yield f"the certificate of {name} is of kind {numbers[kinds[0]]}"

    def _in_python(self, kind, part):
        return shown_in_python(ctypes.c_char_p if part == "out" else self.types[kind])

    def _called(self, place, shown):
        names = [row["name"] for row in self.groups["calls"] if row[place] != "-"]
        return lines_in_c({name: [(shown(*each), each[1]) for each in self.calls[name]] for name in names})

    def _asked(self):
        return {numbered("questions", row["number"], row["name"]) for row in self.groups["questions"]}

    def _takes(self, *of_these):
        """What each question takes of these, or all that it does."""
        rows = [(row["name"], list_of(row["takes"])) for row in self.groups["questions"]]
        return {takes(name, [each for each in taken if each in (of_these or taken)]) for name, taken in rows}

    def _ends(self):
        return {ends(row["name"], row["result"]) for group in ("calls", "questions") for row in self.groups[group]}

    def _answers(self):
        return {answers(row["name"], row["answers"]) for row in self.groups["questions"]}
