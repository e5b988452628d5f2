"""What a part of the memory tells of the whole: for each figure the least and the most that it may be.

A content that many have is met first, and one that two have hardly ever twice, so what a part saves, scaled up, says
little. Blocks of addresses are drawn by chance, each with one probability; so in how many blocks a content is met
follows from how many it lies in by the binomial law. Contents met in many blocks are counted, and scaled up. Of the
others it is known how many were met in one, two, three .. blocks, each number with its error, which is what the
rounds differ by. All ways in which contents may lie in blocks that fit these numbers are looked over, by a linear
program: the figure lies between the least and the greatest that such a way gives. Nothing is supposed of how
contents are shared.
"""

import collections
import dataclasses
import math

from . import workers
from .census import stretches_of_blocks
from .linear import least
from .look import Look
from .savings import Setting

# a content met in so many blocks is counted, not estimated
HEAVY = 30
BINS = [(1, 1), (2, 2), (3, 3), (4, 4), (5, 6), (7, 9), (10, 14), (15, 21), (22, HEAVY - 1)]
# how many standard errors a number may be off, and the part by which more are allowed where nothing fits
ERRORS, MORE = 2.2, 1.4
# the same where the errors are told by 2, 3 .. rounds (Student's distribution), and by more
STUDENT, LATER = [21.2, 5.6, 3.9, 3.3, 3.0, 2.8, 2.7, 2.6], 2.5
# of n blocks that were read none is of a kind that UNSEEN / n of all are, 3 times in 100
UNSEEN = 3.5
# a number of blocks is this part above the one before, where all would be too many
STEP, ALL_BELOW = 1.15, 12


@dataclasses.dataclass
class Met:
    """Contents by the number of blocks that they were met in, and for each round how the numbers differ without it;
    of the contents met in many blocks the pages, by round; pages by block of the others; all pages by round, the
    zeroes among them, and those that have a copy in their own block."""
    seen: "collections.Counter[int]" = dataclasses.field(default_factory=collections.Counter)
    without: "collections.Counter[tuple[int, int]]" = dataclasses.field(default_factory=collections.Counter)
    heavy: list[int] = dataclasses.field(default_factory=list)
    heavy_rounds: "collections.Counter[int]" = dataclasses.field(default_factory=collections.Counter)
    sizes: "collections.Counter[int]" = dataclasses.field(default_factory=collections.Counter)
    rounds: "collections.Counter[int]" = dataclasses.field(default_factory=collections.Counter)
    zeroes: "collections.Counter[int]" = dataclasses.field(default_factory=collections.Counter)
    within: "collections.Counter[int]" = dataclasses.field(default_factory=collections.Counter)

    def add(self, turns: dict[int, int], pages: dict[int, int]) -> None:
        """A content, by the rounds of the blocks that it was met in, and its pages in each."""
        for block, count in pages.items():
            self.rounds[turns[block]] += count
        if len(pages) >= HEAVY:
            self.heavy.append(sum(pages.values()))
            for block, count in pages.items():
                self.heavy_rounds[turns[block]] += count
            return
        times = len(pages)
        for block, count in pages.items():
            self.within[turns[block]] += count - 1
        self.seen[times] += 1
        self.sizes.update(pages.values())
        for turn, less in collections.Counter(turns[block] for block in pages).items():
            self.without[times, turn] -= 1
            self.without[times - less, turn] += 1

    def merge(self, other: "Met") -> None:
        """Adds what was met of other contents."""
        self.heavy += other.heavy
        for name in "seen", "without", "heavy_rounds", "sizes", "rounds", "zeroes", "within":
            mine = getattr(self, name)
            for key, times in getattr(other, name).items():
                mine[key] += times


def met_in(look: Look, number: int, by_node: bool) -> Met:
    """What was met of the contents of a pile, of all nodes together or of each by itself."""
    turns: dict[int, int] = {}
    contents: dict[tuple[int, int], collections.Counter[int]] = collections.defaultdict(collections.Counter)
    frames: set[tuple[int, int]] = set()
    for kind in "own", "merged", "forked":
        for unit, turn, node, digests, seconds in stretches_of_blocks(look, look.pile(kind, number)):
            turns[unit] = turn
            if kind == "forked":
                fresh = [pair for pair in zip(digests, seconds) if pair not in frames]
                frames.update(fresh)
                digests = [digest for digest, _ in fresh]
            for digest in digests:
                contents[digest, node * by_node][unit] += 1
    met, zeroes = Met(), look.reader.zeroes
    for (digest, _), pages in contents.items():
        if digest == zeroes:
            for unit, count in pages.items():
                met.zeroes[turns[unit]] += count
                met.rounds[turns[unit]] += count
        else:
            met.add(turns, pages)
    return met


def met_of(look: Look, by_node: bool) -> Met:
    """What was met of all contents."""
    count = min(look.workers, look.piles)

    def part(number: int) -> Met:
        met = Met()
        for pile in range(number, look.piles, count):
            met.merge(met_in(look, pile, by_node))
        return met

    met = Met()
    for other in [part(0)] if count == 1 else workers.in_parallel(part, count):
        met.merge(other)
    for turn, times in look.zeroes_by_turn().items():
        met.zeroes[turn] += times
        met.rounds[turn] += times
    return met


def numbers_of_blocks(part: float) -> list[int]:
    """The numbers of blocks that a content met in few may lie in."""
    found, most = list(range(1, ALL_BELOW + 1)), 1.8 * HEAVY / part
    while found[-1] < most:
        found.append(max(found[-1] + 1, int(found[-1] * STEP)))
    return found


def chances(blocks: int, part: float) -> list[float]:
    """How likely a content in so many blocks is met in 0, 1 .. of them, below the number that is counted."""
    if part >= 1:
        return [float(times == blocks) for times in range(HEAVY)]
    log = math.log
    return [math.exp(math.lgamma(blocks + 1) - math.lgamma(times + 1) - math.lgamma(blocks - times + 1)
                     + times * log(part) + (blocks - times) * log(1 - part)) if times <= blocks else 0.0
            for times in range(HEAVY)]


def error_of(by_round: "collections.Counter[int]", all_by_round: "collections.Counter[int]", rounds: int) -> float:
    """The standard error of a part of all pages, from what the rounds differ by."""
    whole, mine = all_by_round.total(), by_round.total()
    if not whole or rounds < 2:
        return 0.0
    ratio = mine / whole
    residues = [by_round[turn] - ratio * all_by_round[turn] for turn in range(rounds)]
    return math.sqrt(rounds / (rounds - 1) * sum(residue * residue for residue in residues)) / whole


def errors_from(rounds: int) -> float:
    """How many standard errors a number may be off that so many rounds tell."""
    return STUDENT[max(rounds, 2) - 2] if rounds < len(STUDENT) + 2 else LATER


class Estimate:
    """What may be said of the whole, from what was met in a part of it: how many pages there are, which part was read,
    in how many rounds and blocks."""

    def __init__(self, met: Met, pages: float, part: float, rounds: int, blocks: float):
        self.met, self.pages, self.part, self.rounds = met, pages, part, max(rounds, 2)
        self.errors = errors_from(rounds)
        # the most that blocks may be off, half of which save all and half nothing; and those of kinds not met at all
        self.most = ERRORS * pages * math.sqrt((1 - part) / max(blocks, 1)) / 2
        self.unseen = pages * (1 - part) * min(UNSEEN / max(blocks, 1), 1)
        self.is_one_round = rounds < 2
        self.blocks = numbers_of_blocks(part)
        self.chances = [chances(blocks, part) for blocks in self.blocks]
        self.zeroes = self.share(met.zeroes)
        self.heavy = self.share(met.heavy_rounds)
        light = sum(times * size for size, times in met.sizes.items())
        self.size = light / max(met.sizes.total(), 1)
        # what is saved within blocks is known as well as the rounds agree on it
        self.within = self.pages * error_of(met.within, met.rounds, self.rounds) * math.sqrt(1 - part)

    def share(self, by_round: "collections.Counter[int]") -> tuple[float, float]:
        """How many of all pages are of a kind, and the standard error."""
        whole = self.met.rounds.total() or 1
        return (self.pages * by_round.total() / whole,
                self.pages * error_of(by_round, self.met.rounds, self.rounds) * math.sqrt(1 - self.part))

    def count(self, low: int, high: int) -> tuple[float, float]:
        """How many contents were met in so many blocks, and the standard error."""
        seen = sum(self.met.seen[times] for times in range(low, high + 1))
        whole = self.met.rounds.total()
        grown = [whole / max(whole - self.met.rounds[turn], 1) for turn in range(self.rounds)]
        without = [sum((self.met.seen[times] + self.met.without[times, turn]) * grown[turn] ** times
                       for times in range(low, high + 1)) for turn in range(self.rounds)]
        middle = sum(without) / self.rounds
        spread = (self.rounds - 1) / self.rounds * sum((value - middle) ** 2 for value in without)
        by_law = seen * (1 - self.part) if low > 1 else 0.0
        return seen, math.sqrt(max(spread * (1 - self.part), by_law, 1.0))

    def rows(self, errors: float) -> list[tuple[list[float], float, float]]:
        """What the ways in which contents lie in blocks have to fit, each a sum and its bounds. A variable is the
        part of all pages that contents in so many blocks have."""
        each = [self.pages / (blocks * self.size) for blocks in self.blocks]
        found = []
        for low, high in BINS:
            seen, error = self.count(low, high)
            of = [many * sum(chance[low:high + 1]) for many, chance in zip(each, self.chances)]
            found.append(([value / error for value in of], max(seen / error - errors, 0), seen / error + errors))
        left = self.pages - self.zeroes[0] - self.heavy[0]
        error = max(math.hypot(self.zeroes[1], self.heavy[1]), self.pages * 1e-3, 1.0)
        of = [self.pages * sum(chance) for chance in self.chances]
        found.append(([value / error for value in of], max(left / error - errors, 0), left / error + errors))
        return found

    def costs(self, limit: int) -> list[float]:
        """The frames that stay of contents in so many blocks, for each part of all pages that they have."""
        met, total = self.met.sizes, max(self.met.sizes.total(), 1)
        stays = [sum(times * math.ceil(blocks * size / limit) for size, times in met.items()) / total
                 for blocks in self.blocks]
        return [self.pages / (blocks * self.size) * sum(chance) * stay
                for blocks, chance, stay in zip(self.blocks, self.chances, stays)]

    def frames(self, limit: int) -> tuple[float, float] | None:
        """The least and the most frames that stay of the contents met in few blocks."""
        if not self.met.seen:
            return 0.0, 0.0
        costs, errors = self.costs(limit), self.errors
        for _ in range(8):
            rows = self.rows(errors)
            low = least(costs, rows)
            high = least([-cost for cost in costs], rows)
            if low is not None and high is not None:
                return low, -high
            errors *= MORE
        return None

    def off(self, limit: int) -> float:
        """How many pages what is saved may be off since other blocks differ from those that were read."""
        each = 1 - 1 / limit
        by_rounds = self.errors * math.hypot(self.heavy[1] * each, self.zeroes[1] * each, self.within)
        told = self.most * each if self.is_one_round else min(by_rounds, self.most * each)
        return max(told, self.unseen * each)

    def saved(self, setting: Setting) -> tuple[float, float]:
        """The least and the most pages that a setting saves."""
        limit, whole = setting.max_page_sharing, max(self.met.rounds.total(), 1)
        few = self.frames(limit) or (0.0, self.pages)
        times = self.pages / whole
        many = sum(math.ceil(pages * times / limit) for pages in self.met.heavy)
        zeroes, off = self.zeroes[0], self.off(limit)
        empty = 0.0 if setting.use_zero_pages else min(zeroes, math.ceil(zeroes / limit))
        middle = self.pages - many - empty
        return max(middle - few[1] - off, 0.0), min(max(middle - few[0] + off, 0.0), self.pages)
