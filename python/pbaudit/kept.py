"""What is kept of an audit for its page and its explanation, without all bytes of its files.

A file that was read at a path is read there again, where it is as it was. The bytes of others are kept where they are
few; those of files that this package made of values are pressed where they are many, since nobody else has them.
"""
import os
import stat
import zlib
from dataclasses import dataclass, replace
from typing import Dict, Optional, Tuple

from ._auditor import Question
from .files import File, bytes_of

# Files of more bytes are pressed, or not kept.
MANY = 2**20
# The device, the number, the size and the time of change of a file, which tell whether it is the same.
Stamp = Tuple[int, int, int, int]


@dataclass(frozen=True)
class Source:
    """A file as it can be had again: at a path, with its stamp; or as its bytes, which may be pressed."""

    path: Optional[str] = None
    stamp: Optional[Stamp] = None
    data: Optional[bytes] = None
    is_pressed: bool = False

    def again(self) -> Optional[bytes]:
        """The bytes of the file, or None where it isn't there as it was, or wasn't kept."""
        if self.data is not None:
            return zlib.decompress(self.data) if self.is_pressed else self.data
        if self.path is None or self.stamp is None or stamp_of(self.path) != self.stamp:
            return None
        try:
            return bytes_of(self.path)
        except OSError:
            return None


def stamp_of(file: Optional[File]) -> Optional[Stamp]:
    """The stamp of a regular file that is given by its path; None of what is given otherwise."""
    if not isinstance(file, (str, os.PathLike)):
        return None
    try:
        found = os.stat(file)
    except (OSError, ValueError):
        return None
    return (found.st_dev, found.st_ino, found.st_size, found.st_mtime_ns) if stat.S_ISREG(found.st_mode) else None


def source_of(file: Optional[File], stamp: Optional[Stamp], data: bytes) -> Source:
    """How a file that somebody gave, with its stamp ahead of reading it, can be had again."""
    if isinstance(file, (str, os.PathLike)) and stamp is not None:
        return Source(os.path.abspath(os.fspath(file)), stamp)
    return Source(data=data if len(data) <= MANY else None)


def made_source(data: bytes) -> Source:
    """How a file that was made of values can be had again."""
    return Source(data=data) if len(data) <= MANY else Source(data=zlib.compress(data, 1), is_pressed=True)


@dataclass(frozen=True)
class Kept:
    """A question without its files, and how these can be had again, by the names of their fields."""

    blank: Question
    sources: Dict[str, Source]

    def question(self) -> Optional[Question]:
        """The question, or None where a file can't be had again."""
        files = {name: source.again() for name, source in self.sources.items()}
        return None if None in files.values() else replace(self.blank, **files)


FILES = ("election", "certificate", "violation", "outcome")


def keep(question: Question, sources: Optional[Dict[str, Source]] = None) -> Kept:
    """What is kept of a question; without sources its files were made of values."""
    data = {name: getattr(question, name) for name in FILES if getattr(question, name) is not None}
    if sources is None:
        sources = {name: made_source(each) for name, each in data.items()}
    blank = replace(question, election=b"", certificate=None, violation=None, outcome=None)
    return Kept(blank, {name: sources[name] for name in data})
