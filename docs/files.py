#!/usr/bin/env python3
"""Prints what each source file and each module of definitions is for: the first sentence of the comment at its head.

usage: docs/files.py [NAME..]     of these crates, or of the folders python/pbaudit, python/pbaudit/finding and web,
                                  in the place of all
"""
import re
import signal
import sys
from pathlib import Path

TOP = Path(__file__).resolve().parent.parent
FOLDERS = ["python/pbaudit", "python/pbaudit/finding", "web"]
KINDS = ["src/**/*.rt", "specs/**/*.antt", "*.py", "src/**/*.ts", "tests/**/*.ts", "*.ts", "*.c"]
# What may stand before the comment, and the comment.
HEADS = {
    ".rt": r"((?://!.*\n)+)",
    ".antt": r"((?:--.*\n)+)",
    ".py": r'(?:#!.*\n)?"""((?:.|\n)*?)(?:"""|\n\n)',
    ".ts": r"/\*((?:.|\n)*?)\*/",
    ".c": r"/\*((?:.|\n)*?)\*/",
}


def purpose(file):
    """The first sentence of the comment with which a file begins, or nothing."""
    head = re.match(HEADS[file.suffix], file.read_text(encoding="utf-8"))
    lines = [re.sub(r"^(//!|--| \*)", "", line).strip() for line in head.group(1).splitlines()] if head else []
    paragraph = " ".join(lines[: lines.index("")] if "" in lines else lines)
    return re.split(r"(?<=\.) (?=[A-Z])", paragraph, maxsplit=1)[0]


def files(folder):
    """The files of a folder, but for the lists of modules."""
    return [file for kind in KINDS for file in sorted(folder.glob(kind)) if file.name != "Lib.antt"]


def main():
    if sys.argv[1:] == ["--help"]:
        print(__doc__)
        return 0
    crates = re.findall(r"^(\w+)(?: \w+)?:", (TOP / "crates.txt").read_text(encoding="utf-8"), re.MULTILINE)
    for name in sys.argv[1:] or crates + FOLDERS:
        folder = TOP / name if name in FOLDERS else TOP / "crates" / name
        if not folder.is_dir():
            print(f"files.py: there is no crate {name}", file=sys.stderr)
            return 3
        print(folder.relative_to(TOP))
        for file in files(folder):
            print(f"  {file.relative_to(folder)}: {purpose(file)}")
    return 0


if __name__ == "__main__":
    # Whoever reads the first lines alone, as head does, ends it.
    signal.signal(signal.SIGPIPE, signal.SIG_DFL)
    sys.exit(main())
