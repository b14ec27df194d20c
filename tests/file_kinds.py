"""Files, each with what it is by its first record that isn't blank, as docs/FORMATS.md says how each kind of file begins: the examples,
and files that were made for it."""
import pytest

from tables import EXAMPLES

# What the examples are, by the ends of their names.
BY_NAME = {"pb": "election", "outcome.csv": "outcome", "prices.csv": "prices", "violation.csv": "violation",
           "refutation.csv": "refutation"}  # fmt: skip
NO_KIND = ("sheet.ballots.csv", "sheet.projects.csv", "answers.txt", "README.md")

# What stands behind the first record is not looked at.
MADE = {
    "election alone": (b"META", "election"), "election in small letters": (b" meta ;; \r\nkey;value\r\n", "election"),
    "election in quotes": (b'"META"\n', "election"), "election with a mark": (b"\xef\xbb\xbfMETA\n", "election"),
    "election behind blank records": (b"\n;;\n \n\t;\nMETA\nkey;value\n", "election"),
    "election with bytes that aren't UTF-8 behind it": (b"META\nkey;\xff\n", "election"),
    "election with commas": (b"META,,\nkey,value\n", None), "election with more in its marker": (b"META;x\n", None),
    "another section first": (b"PROJECTS\nproject_id;cost\n", None), "blank records with commas first": (b",,\nMETA\n", None),
    "outcome": (b"pb-outcome,1\nproject,a\n", "outcome"), "outcome with spaces and empty fields": (b" pb-outcome , 1 ,, \n", "outcome"),
    "prices": (b"pb-prices,1", "prices"), "prices in quotes": (b'"pb-prices","1"\n', "prices"),
    "prices behind blank records": (b"\xef\xbb\xbf\r\n,,\n \npb-prices,1\ndenominator,1\n", "prices"),
    "prices behind records with semicolons": (b";\npb-prices,1\n", None), "prices behind another record": (b"prices\npb-prices,1\n", None),
    "violation by counting": (b"pb-violation,1\nproject,a\n", "violation"),
    "violation by a measure": (b"pb-violation,2\nsatisfaction,cost\n", "violation"),
    "violation behind blank records": (b"\n , \npb-violation,2\n", "violation"), "refutation": (b"pb-refutation,1\ncover,0\n", "refutation"),
    "refutation behind blank records": (b"\n\n\npb-refutation,1\n", "refutation"),
    "nothing": (b"", None), "blank records alone": (b"\n,,\n;;\n  \n", None), "a mark alone": (b"\xef\xbb\xbf", None),
    "no version": (b"pb-prices\n", None), "another version": (b"pb-prices,2\n", None), "violation of another version": (b"pb-violation,3\n", None),
    "refutation of another version": (b"pb-refutation,2\n", None), "outcome of another version": (b"pb-outcome,2\n", None),
    "one field more": (b"pb-prices,1,x\n", None), "capital letters": (b"PB-PRICES,1\n", None), "semicolons": (b"pb-prices;1\n", None),
    "bytes that aren't UTF-8": (b"pb-prices,1,\xff\n", None), "bytes that aren't UTF-8 behind a blank record": (b"\n\xff\nMETA\n", None),
}  # fmt: skip


def of_examples():
    for path in sorted(EXAMPLES.iterdir()):
        ends = [kind for end, kind in BY_NAME.items() if path.name.endswith(f".{end}")]
        if ends or path.name in NO_KIND:
            yield path.name, path.read_bytes(), (ends or [None])[0]


EACH = [pytest.param(file, kind, id=name) for name, file, kind in of_examples()]
EACH += [pytest.param(file, kind, id=name) for name, (file, kind) in MADE.items()]
