"""The records of a file, their fields, and refusals."""
import re

BLANKS = b"\t\n\x0b\x0c\r "
BYTE_ORDER_MARK = b"\xef\xbb\xbf"
MOST_BYTES = 2**28


class Refused(Exception):
    """A fault, by its number, and the record at which it stands."""

    def __init__(self, number, record):
        super().__init__(number, record)
        self.number, self.record = number, record


def fields_of(data, separator):
    """Each record of a file, in order, as the list of its fields as they stand. An empty line gives none."""
    while data.startswith(BYTE_ORDER_MARK):
        data = data[len(BYTE_ORDER_MARK):]
    end_of_field = re.compile(b"[\r\n" + re.escape(separator) + b"]")
    at = 0
    while at < len(data):
        if data[at] in b"\r\n":
            at += 1
            continue
        fields = []
        while True:
            text, at = quoted(data, at + 1) if data[at:at + 1] == b'"' else (b"", at)
            end = end_of_field.search(data, at)
            stop = end.start() if end else len(data)
            fields.append(text + data[at:stop])
            at = stop
            if data[at:at + 1] != separator:
                break
            at += 1
        yield fields


def quoted(data, at):
    """The text from behind an opening quote to its closing quote, and the place behind that one."""
    parts = []
    while True:
        close = data.find(b'"', at)
        if close < 0:
            return b"".join(parts) + data[at:], len(data)
        parts.append(data[at:close])
        at = close + 1
        if data[at:at + 1] != b'"':
            return b"".join(parts), at
        parts.append(b'"')
        at += 1


def is_text(fields):
    """Whether each field is UTF-8."""
    try:
        for field in fields:
            field.decode("utf-8")
    except UnicodeDecodeError:
        return False
    return True


def clean(field):
    return field.strip(BLANKS)


def lower(field):
    """The text with the letters A to Z made small."""
    return field.lower()


def records(data, separator, not_utf8):
    """The number and the cleaned fields of each record that isn't blank, and last the number of the end, with None."""
    number = 0
    for number, fields in enumerate(fields_of(data, separator), 1):
        if not is_text(fields):
            raise Refused(not_utf8, number)
        cleaned = [clean(field) for field in fields]
        if any(cleaned):
            yield number, cleaned
    yield number + 1, None


def refuse_lowest(faults, record):
    """Refuses the record by the lowest of the faults that stand at it, if any does."""
    if faults:
        raise Refused(min(faults), record)
