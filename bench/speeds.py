"""What bench/speed --record measured (bench/speed.txt), and the rows of docs/SPEED.md that have it."""

import dataclasses
import os

TOP = os.path.dirname(os.path.dirname(os.path.abspath(__file__)))
FILE = os.path.join(TOP, "bench", "speed.txt")
PAGE = os.path.join(TOP, "docs", "SPEED.md")


@dataclasses.dataclass
class Speeds:
    """The first line of the file, and for each work its cost, what that is compared with, and both in words.

    In the page a figure below its goal stands in bold."""
    head: str
    works: dict

    @property
    def commit(self):
        """The commit whose program was measured."""
        return self.head.split()[3]

    def line(self, line):
        """A line of the page with the figures that were measured, if it is the row of a work."""
        cells = [cell.strip() for cell in line.strip().strip("|").split("|")]
        name = cells[0].strip("`")
        if not line.startswith("| `") or name not in self.works:
            return line
        own, other, words = self.works[name]
        if len(cells) == 6:
            figure = f"{other / own:.3f}"
            cells[2:5] = f"{own:,.0f}", f"{other:,.0f}", figure if other / own >= float(cells[5]) else f"**{figure}**"
        else:
            cells[2] = words
        return "| " + " | ".join(cells) + " |"

    def faults(self, page):
        """The lines of the page that have other figures, and the works that have no row there."""
        lines = page.split("\n")
        for number, line in enumerate(lines, 1):
            if line != self.line(line):
                yield f"docs/SPEED.md:{number}: bench/speed.txt has {self.line(line)}"
        for name in self.works:
            if not any(line.startswith(f"| `{name}` |") for line in lines):
                yield f"docs/SPEED.md: {name} of bench/speed.txt has no row"
        if self.commit not in page:
            yield f"docs/SPEED.md: commit {self.commit} of bench/speed.txt is not named"


def read():
    """What was measured."""
    with open(FILE, encoding="utf-8") as file:
        head, *lines = file.read().splitlines()
    rows = (line.split("\t") for line in lines)
    return Speeds(head, {name: (float(own), float(other), words) for name, own, other, words in rows})
