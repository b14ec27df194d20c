"""Damages the bytes of a file, as transport, editors, spreadsheets and bad luck do, and as a hostile sender would."""
import re

BYTES = [
    b'"', b'""', b";", b",", b"\n", b"\r", b"\r\n", b" ", b"\t", b"\x00", b"\x1f", b"\x7f", b"\x80", b"\xff", b"\xc3",
    b"\xa9", b"\xc3\xa9", b"\xc2\xa0", b"\xc2\x85", b"\xed\xa0\x80", b"\xc0\xaf", b"\xf4\x90\x80\x80", b"\xe2\x80",
    b"\xef\xbb\xbf", b"0", b"1", b"-", b"+", b".", b"e", b"#", b"'", b"\\",
]  # fmt: skip
NUMBERS = [
    b"0", b"1", b"2", b"00", b"", b"-1", b"+1", b"1.", b".5", b"1.5", b"1,5", b"1e3", b"0x1", b"1 000", b"1_0",
    b"\xd9\xa1", b"\xc2\xb2", b"1.0000001", b"1.0000000", b"0.000001", b"1000000000", b"1000000001",
    b"999999999999.999999", b"1000000000000", b"1000000000000.0", b"1000000000000.000001", b"1000000000001",
    b"10000000000000", b"1000000000000000000", b"1000000000000000001", b"18446744073709551615", b"18446744073709551616",
    b"18446744073709551617", b"4294967296", b"4294967297", b"999999999999999999", b"1000000000000000000000",
    b"1000000000000000000001", b"340282366920938463463374607431768211456", b"340282366920938463463374607431768211457",
    b"0" * 1000 + b"1", b"9" * 1000, b"1" * 19, b"1" * 22, b"1.2.3", b"1,2,3", b"1.2,3",
]  # fmt: skip
WORDS = [
    b"META", b"PROJECTS", b"VOTES", b"key", b"value", b"budget", b"vote_type", b"num_projects", b"num_votes",
    b"approval", b"ordinal", b"choose-1", b"project_id", b"cost", b"selected", b"vote", b"voter_id", b"name",
    b"pb-prices", b"pb-outcome", b"pb-violation", b"denominator", b"voter_budget", b"voter", b"project", b"payment",
    b"satisfaction", b"count", b"group", b"pb-refutation", b"cover", b"role", b"weight", b"least", b"most", b"left",
]  # fmt: skip
MARKERS = [b"META", b"PROJECTS", b"VOTES", b"votes", b"Projects;;", b" meta ;", b'"VOTES"', b"VOTES;x"]


def lines_of(data):
    return re.findall(rb"[^\r\n]*(?:\r\n|\r|\n)|[^\r\n]+$", data)


def flip(chance, data):
    at = chance.randrange(len(data))
    byte = chance.choice([data[at] ^ (1 << chance.randrange(8)), chance.randrange(256)])
    return data[:at] + bytes([byte]) + data[at + 1:]


def insert(chance, data):
    at = chance.randrange(len(data) + 1)
    return data[:at] + chance.choice(BYTES) + data[at:]


def remove(chance, data):
    at = chance.randrange(len(data))
    return data[:at] + data[at + chance.choice([1, 1, 2, 5, 20]):]


def cut(chance, data):
    return data[: chance.randrange(len(data) + 1)]


def cut_lines(chance, data):
    lines = lines_of(data)
    return b"".join(lines[: chance.randrange(len(lines) + 1)])


def double_line(chance, data):
    lines = lines_of(data)
    at = chance.randrange(len(lines))
    lines.insert(chance.choice([at, chance.randrange(len(lines) + 1)]), lines[at])
    return b"".join(lines)


def drop_line(chance, data):
    lines = lines_of(data)
    at = chance.randrange(len(lines))
    del lines[at: at + chance.choice([1, 1, 1, 2, 5])]
    return b"".join(lines)


def swap_lines(chance, data):
    lines = lines_of(data)
    one, other = chance.randrange(len(lines)), chance.randrange(len(lines))
    lines[one], lines[other] = lines[other], lines[one]
    return b"".join(lines)


def replace(chance, data, pattern, texts):
    """Replaces one place of a pattern by one of the texts."""
    places = list(re.finditer(pattern, data))
    if not places:
        return data
    place = chance.choice(places)
    return data[: place.start()] + chance.choice(texts) + data[place.end():]


def number(chance, data):
    return replace(chance, data, rb"[0-9]+(?:[.,][0-9]+)?", NUMBERS)


def word(chance, data):
    return replace(chance, data, rb"[A-Za-z_-]{3,}", WORDS)


def field(chance, data):
    return replace(chance, data, rb"[^;,\r\n]+", [b"", b"", b'"', b'""', b"x", b" ", b"1"])


def copy_field(chance, data):
    """Puts the text of one field in the place of another."""
    return replace(chance, data, rb"[^;,\r\n]+", re.findall(rb"[^;,\r\n]+", data) or [b""])


def double_field(chance, data):
    """Writes one field twice, one behind the other."""
    places = list(re.finditer(rb"([^;,\r\n]+)([;,\r\n])", data))
    if not places:
        return data
    place = chance.choice(places)
    separator = place[2] if place[2] in b";," else chance.choice([b";", b","])
    return data[: place.start()] + place[1] + separator + data[place.start():]


def open_quote(chance, data):
    return replace(chance, data, rb"(?m)^|(?<=[;,])", [b'"', b'"', b'""', b'"a"b"'])


def marker(chance, data):
    lines = lines_of(data)
    lines.insert(chance.randrange(len(lines) + 1), chance.choice(MARKERS) + b"\n")
    return b"".join(lines)


def blank_line(chance, data):
    lines = lines_of(data)
    line = chance.choice([b"\n", b"\r", b";\n", b",\n", b" \n", b'""\n', b'";"\n', b'","\n', b"\xc2\xa0\n"])
    lines.insert(chance.randrange(len(lines) + 1), line)
    return b"".join(lines)


def more_fields(chance, data):
    return replace(chance, data, rb"(?=\r?\n)", [b";", b";;", b",", b",,", b";x", b",x", b", ,", b" ", b'"', b',""'])


def line_ends(chance, data):
    return data.replace(b"\n", chance.choice([b"\r", b"\r\n", b"\n\n", b"\n\r", b"\r\r\n"]))


def front(chance, data):
    mark = b"\xef\xbb\xbf"
    return chance.choice([mark, mark * 3, b"\n", b"\n" + mark, mark[:2], b"\xff\xfe", b" ", b";\n", b'"', b"#\n"]) + data


def other_separator(chance, data):
    return data.replace(*chance.choice([(b";", b","), (b",", b";"), (b";", b"\t"), (b",", b", "), (b";", b" ; ")]))


def wide(chance, data):
    """UTF-16, as spreadsheets write it, and Latin-1."""
    try:
        return data.decode("utf-8").encode(chance.choice(["utf-16", "utf-16-le", "latin-1"]), "replace")
    except UnicodeDecodeError:
        return data


WAYS = [
    flip, flip, flip, insert, insert, insert, remove, remove, cut, cut_lines, double_line, double_line, drop_line,
    drop_line, swap_lines, number, number, number, word, word, field, copy_field, copy_field, double_field,
    double_field, open_quote, marker, blank_line, more_fields, more_fields, line_ends, front, other_separator, wide,
]  # fmt: skip


def damage(chance, data):
    """The bytes after one to three damages."""
    for _ in range(chance.choice([1, 1, 1, 2, 3])):
        if data:
            data = chance.choice(WAYS)(chance, data)
    return data
