"""The memory of the processes in blocks of addresses, in rounds of chance, which are read one after the other.

Each block is in one round by chance, so that what some rounds have read is a sample of all blocks: of a measurement
that is interrupted, or of which only a part was asked for. Blocks of memory that several processes map since a fork
are in one round for all of them, so that a frame is met with all who map it; what a process alone maps is in a round
of that process's own.
"""

import array
import dataclasses
import random
from collections.abc import Iterator

from .areas import Area, Space

ROUNDS = 20
# the least pages of a block where all is read, with so many for each pile, and in a sample; an area has so many
# blocks at most
WHOLE, EACH, PART, MOST = 1024, 32, 64, 1 << 16
# an odd number that mixes an address into a seed
MIXED = 0x9e3779b97f4a7c15
OWN, COMMON, BOTH = "own", "common", "both"


@dataclasses.dataclass(frozen=True)
class Block:
    """Pages of an area that are read together: the block's number, whose they are, in which round, and whether those
    that one process maps, those that several do, or both. The unit is the same for all that were drawn together."""
    number: int
    owner: int
    area: Area
    first: int
    end: int
    kind: str
    turn: int
    unit: int


class Plan:
    """The blocks of all processes. Only the part of them that is asked for (1 is all) is ever drawn. By the number
    of a block it knows the process, the round and the unit."""

    def __init__(self, spaces: list[Space], part: float, piles: int):
        self.part, self.spaces, self.seed = part, spaces, random.getrandbits(64)
        self.whole = max(WHOLE, EACH * piles)
        self.owners, self.turns, self.units = array.array("I"), array.array("B"), array.array("Q")
        for block in self.drawn():
            self.owners.append(block.owner)
            self.turns.append(block.turn)
            self.units.append(block.unit)

    @property
    def is_part(self) -> bool:
        """Tells whether only a part is read."""
        return self.part < 1

    def rounds(self, worker: int, workers: int) -> list[list[Block]]:
        """For each round, its blocks that a worker of so many reads, process by process."""
        rounds: list[list[Block]] = [[] for _ in range(ROUNDS)]
        for block in self.drawn():
            if block.number % workers == worker:
                rounds[block.turn].append(block)
        return rounds

    def drawn(self) -> Iterator[Block]:
        """All blocks that are read."""
        chance, number = random.Random(self.seed), 0
        for owner, space in enumerate(self.spaces):
            for area in space.areas:
                for first, end, kind, draw in self.of_area(area, chance):
                    turn, unit = draw.randrange(ROUNDS), draw.getrandbits(62)
                    yield Block(number, owner, area, first, end, kind, turn, unit)
                    number += 1

    def of_area(self, area: Area, chance: random.Random) -> Iterator[tuple[int, int, str, random.Random]]:
        """The blocks of an area that are read, and what draws the rest for each."""
        size = self.size(area)
        for begin in range(area.first - area.first % size, area.end, size):
            first, end = max(begin, area.first), min(begin + size, area.end)
            if chance.random() < self.part:
                yield first, end, OWN if area.several else BOTH, chance
            if area.several:
                common = random.Random(self.seed ^ begin * MIXED)
                if common.random() < self.part:
                    yield first, end, COMMON, common

    def size(self, area: Area) -> int:
        """The pages of a block of an area: a power of two, larger where few pages are in memory."""
        wanted, span = PART if self.is_part else self.whole, area.end - area.first
        least = max(wanted * max(span // max(area.pages, 1), 1), span // MOST)
        return 1 << max(least - 1, 1).bit_length()
