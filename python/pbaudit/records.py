"""The records of a file, by the rules of docs/FORMATS.md."""
import re
from typing import Iterator, List, Optional, Tuple

_BYTE_ORDER_MARKS = re.compile(rb"(?:\xef\xbb\xbf)*")
_LINE_END = re.compile(rb"\r\n?|\n|\Z")
# A line without quotes, and a field that may begin with a quote, for each separator.
_PLAIN_LINE = re.compile(rb'([^"\r\n]*)(?:\r\n?|\n|\Z)')
_FIELDS = {
    separator: re.compile(rb'(?:"([^"]*(?:""[^"]*)*)(?:"|\Z))?([^%b\r\n]*)' % separator) for separator in (b";", b",")
}


def records(data: bytes, separator: bytes) -> Iterator[List[bytes]]:
    """The records of a file that aren't blank, each as its fields without the blanks at their ends."""
    for _, fields in _placed(data, separator):
        if any(fields):
            yield fields


def line_of_record(data: bytes, separator: bytes, number: int) -> Optional[int]:
    """The line on which the record of this number begins, both from 1, or None where there is no such record. Blank records
    count, and empty lines don't."""
    counted = 0
    for position, fields in _placed(data, separator):
        counted += not (fields == [b""] and data[position:position + 1] in (b"\r", b"\n"))
        if counted == number:
            return len(re.findall(rb"\r\n?|\n", data[:position])) + 1
    return None


def _placed(data: bytes, separator: bytes) -> Iterator[Tuple[int, List[bytes]]]:
    """Where each record and each empty line begins, with its fields without the blanks at their ends."""
    marks = _BYTE_ORDER_MARKS.match(data)
    position = marks.end() if marks else 0
    while position < len(data):
        begin, plain = position, _PLAIN_LINE.match(data, position)
        if plain:
            fields, position = plain[1].split(separator), plain.end()
        else:
            fields, position = _quoted_record(data, position, separator)
        yield begin, [field.strip() for field in fields]


def _quoted_record(data: bytes, position: int, separator: bytes) -> Tuple[List[bytes], int]:
    """The fields of a record that has quotes, and where the next record begins."""
    fields = []
    while True:
        field = _FIELDS[separator].match(data, position)
        assert field is not None, "a field may be empty"
        fields.append((field[1] or b"").replace(b'""', b'"') + field[2])
        position = field.end()
        if data[position:position + 1] != separator:
            end = _LINE_END.match(data, position)
            return fields, end.end() if end else len(data)
        position += 1
