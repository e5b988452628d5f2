"""A bar on the terminal while memory is read: how far, how fast, how long still, and whose memory it is."""

import sys
import time

from .units import MEGABYTE, PAGE, as_time
from .workers import Shared

BAR = 20
NAME = 14
# the least time between two bars, in seconds
PAUSE = 0.2


class Progress:
    """Counts the pages that the workers have read of so many, and shows it where standard error is a terminal. So
    many times all of them are read, with a pause between."""

    def __init__(self, pages: int):
        self.pages = max(pages, 1)
        self.begun = self.shown = time.monotonic()
        self.is_shown = sys.stderr.isatty()
        self.shared: Shared | None = None
        self.names: list[str] = []

    def follow(self, shared: Shared, names: list[str]) -> None:
        """What is shown are the counters of these workers, and these names."""
        self.shared, self.names = shared, names

    def advance(self, _pages: int, _name: str) -> None:
        """So many pages more were read, of the process of a name."""

    def look(self) -> None:
        """Draws the bar, unless it was drawn just now."""
        now = time.monotonic()
        if self.is_shown and self.shared and now - self.shown > PAUSE:
            self.shown = now
            name = self.names[self.shared.owner()] if self.names else ""
            self.draw("ends what it is at .." if self.shared.is_stopped() else
                      self.line(self.shared.pages(), name, now - self.begun))

    def line(self, done: int, name: str, seconds: float) -> str:
        """The bar, and beside it the numbers."""
        part = min(done / self.pages, 1)
        speed = done * PAGE / MEGABYTE / max(seconds, 0.001)
        left = f"{as_time(seconds * (1 - part) / part)} left" if part else ""
        return (f"[{'#' * round(BAR * part):.<{BAR}}] {100 * part:3.0f}%  {done * PAGE / MEGABYTE:,.0f} MB"
                f"  {speed:,.0f} MB/s  {left}  {name[:NAME]}")

    def seconds(self) -> float:
        """The seconds since the beginning."""
        return time.monotonic() - self.begun

    def wait(self, seconds: float, is_stopped=lambda: False) -> None:
        """Waits between two looks."""
        end = time.monotonic() + seconds
        while (left := end - time.monotonic()) > 0 and not is_stopped():
            time.sleep(min(left, 0.5))

    def draw(self, line: str) -> None:
        """Writes a line over the last one."""
        sys.stderr.write(f"\r\x1b[K{line[:79]}")
        sys.stderr.flush()

    def clear(self) -> None:
        """Takes the bar away."""
        if self.is_shown:
            sys.stderr.write("\r\x1b[K")
            sys.stderr.flush()
