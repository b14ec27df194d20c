"""How a search is told: names that can't do harm in a shell, and progress."""
import shlex
import sys
import time
from typing import Iterable, Optional

from ..shown import is_hidden, visible

# How long nothing is told on a terminal.
PAUSE = 0.5


def quoted(words: Iterable[str]) -> str:
    """A command that can be copied into a shell."""
    return " ".join("$'" + "".join(map(_in_quotes, word)) + "'" if any(map(_is_odd, word)) else shlex.quote(word)
                    for word in words)


def _is_odd(letter: str) -> bool:
    return is_hidden(letter) or not letter.isprintable()


def _in_quotes(letter: str) -> str:
    """A letter within bash's $'..', byte by byte where it isn't seen."""
    if not _is_odd(letter):
        return "\\" + letter if letter in "'\\" else letter
    return "".join(f"\\x{byte:02x}" for byte in letter.encode("utf-8", "surrogateescape"))


class Teller:
    """Tells progress on a terminal, in one line."""

    def __init__(self) -> None:
        self._told, self._is_terminal = time.monotonic(), sys.stderr.isatty()

    def __call__(self, what: str, seconds: Optional[float] = None) -> None:
        now = time.monotonic()
        if self._is_terminal and now - self._told >= PAUSE:
            self._told = now
            left = "" if seconds is None else f", {seconds:.0f} s left"
            self._write(f"\r{visible(what)}{left}\033[K")

    def clear(self) -> None:
        """Takes the line away."""
        if self._is_terminal:
            self._write("\r\033[K")

    @staticmethod
    def _write(text: str) -> None:
        try:
            print(text, end="", file=sys.stderr, flush=True)
        except OSError:
            # Progress isn't an answer.
            pass
