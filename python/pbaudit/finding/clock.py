"""The time that a search has, which its parts share, and what it tells of its progress."""
import time
from typing import Callable, Optional

# Tells what is tried, and how many seconds are left for the whole search.
Tell = Callable[[str, float], None]


class Clock:
    """The time of a search, or of a part of one, which tells how much is left for the whole."""

    def __init__(self, seconds: float, tell: Optional[Tell] = None, whole: "Optional[Clock]" = None):
        self._ends, self._tell, self._whole, self._told = time.monotonic() + seconds, tell, whole, ""

    def part(self, share: float) -> "Clock":
        """The time of a part that has this share of what is left."""
        return Clock(self.left() * share, self._tell, self._whole or self)

    def left(self) -> float:
        """How many seconds are left."""
        return max(0.0, self._ends - time.monotonic())

    def tell(self, told: str) -> None:
        """Tells what is tried now."""
        self._told = told
        self.tick()

    def tick(self) -> None:
        """Tells it again, with the time that is left for the whole."""
        if self._tell:
            self._tell(self._told, (self._whole or self).left())
