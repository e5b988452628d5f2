"""One walk over the memory of all chosen processes, and where asked a second one, which finds the pages that
changed; shared out among as many workers as there are processors."""

import array
import collections
import dataclasses
import functools
from collections.abc import Callable

from . import kernel, nodes, workers
from .areas import Space, space_of
from .blocks import ROUNDS, Block, Plan
from .nodes import Nodes
from .pagemap import Frames
from .piles import Pile, Piles, Shelf, block_of, node_of, piles_for
from .pinned import Pinned, pinned_of
from .processes import Process
from .progress import Progress
from .reading import Reader
from .sampling import FIRST, LEAST, MOST, Sampler
from .told import Told, told_of
from .trouble import Ended, Trouble
from .walk import Counts, Files, Target, Walk

# below so many pages, 64 MB, one worker is enough: this program itself
FEW = 1 << 14
KINDS = ["own", "forked", "merged"]


@dataclasses.dataclass
class Seen:
    """A process, what is to be read of it, what of it is pinned, what the kernel tells, and what was met of it. It
    grew by so many pages while it was read."""
    process: Process
    space: Space = dataclasses.field(default_factory=Space)
    pinned: Pinned = dataclasses.field(default_factory=Pinned)
    told: Told = dataclasses.field(default_factory=Told)
    counts: Counts = dataclasses.field(default_factory=Counts)
    grown: int = 0
    pages: int = 0
    nodes: Nodes | None = None

    @property
    def merged(self) -> int:
        """The pages that KSM merged, or mapped from the page of zeroes, as far as the kernel tells."""
        return (self.told.merged or 0) + (self.told.zeroed or 0)

    @property
    def has_ended(self) -> bool:
        """Tells whether the process ended before all of it was read."""
        return self.counts.has_ended


@dataclasses.dataclass
class Found:
    """What a worker found: where its piles lie, or the piles themselves, and the numbers."""
    piles: dict[str, Piles | list[tuple[int, int]]]
    empty: "collections.Counter[int]"
    split: "collections.Counter[int]"
    counts: dict[int, Counts]
    rounds: int
    bytes: int
    sure: set[int]
    on_nodes: "collections.Counter[int]"


class Look:
    """The walk: what it reads with, and what it found. `part` is how much of the contents is taken, 1 being all,
    `count` how many workers read at once (None is one for each processor, where there is much), and `rate` how many
    megabytes a second at most."""

    def __init__(self, processes: list[Process], only_marked: bool, part: float = 1.0, count: int | None = None,
                 rate: float | None = None):
        self.only_marked, self.rate = only_marked, rate
        self.nodes = nodes.nodes_of_machine()
        self.frames, self.reader = Frames(), Reader()
        self.seen = [self.planned(process) for process in processes]
        pages = self.pages()
        self.workers = count or (1 if pages < FEW else workers.processors())
        self.piles = piles_for(int(pages * part))
        self.plan = Plan([seen.space for seen in self.seen], 1, self.piles)
        self.sampler = Sampler(part, self.reader.digest) if part < 1 else None
        self.are_zeroes_taken = kernel.number_in("use_zero_pages") == 1 and kernel.has_run()
        self.shelves: list[Shelf] = []
        self.found: list[Found] = []
        self.rounds = 0
        self.sure: set[int] = set()

    def planned(self, process: Process) -> Seen:
        """A process, and what is to be read of it."""
        try:
            with process.opened() as folder:
                told = told_of(folder)
                space, pinned = space_of(folder, self.only_marked, told.zeroed != 0), pinned_of(folder)
                lie_on = Nodes(process.pid, folder, self.nodes)
        except (Ended, PermissionError):
            return Seen(process, counts=Counts(has_ended=True))
        seen = Seen(process, space, pinned, told, nodes=lie_on)
        if pinned.is_whole:
            seen.counts.pinned, space.areas = space.pages, []
        return seen

    def pages(self) -> int:
        """The pages of which a part, or all, is to be read."""
        return sum(seen.space.pages for seen in self.seen)

    def targets(self) -> list[Target]:
        """The processes as the workers see them."""
        return [Target(seen.process, seen.pinned, bool(seen.told.merged), seen.nodes) for seen in self.seen]

    def once(self, progress: Progress) -> None:
        """Reads every page once, and counts it."""
        if self.sampler:
            self.read_first(self.sampler)
        self.walk(progress, lambda walk, pass_on: pass_on(walk.look))

    def read_first(self, sampler: Sampler) -> None:
        """Reads some blocks, and finds the contents that many pages have."""
        pages, keys = max(self.pages(), 1), array.array("q")
        part = min(max(FIRST, LEAST / pages), MOST / pages, 1)
        plan = Plan([seen.space for seen in self.seen], part, 1)
        walk = Walk(self.targets(), self.frames, (self.reader, sampler), 1, self.rate)

        def visit(block: Block, files: Files) -> int:
            for first, letters, _ in walk.runs(block, files):
                keys.extend(sampler.keys(files.memory, first, len(letters)) or ())
            return 0

        walk.through(plan.rounds(0, 1), visit, lambda _pages, _owner: None, lambda: False)
        sampler.take_for_sure(keys, part)

    def twice(self, seconds: float, progress: Progress) -> None:
        """Reads every page, waits, reads it again, and counts it where it has not changed."""
        def both(walk: Walk, pass_on: Callable) -> None:
            pass_on(walk.look_before)
            progress.wait(seconds)
            pass_on(walk.look_again)
        self.walk(progress, both)

    def walk(self, progress: Progress, way: Callable) -> None:
        """Has the workers go their way, and takes together what they found."""
        shared, targets = workers.Shared(), self.targets()
        if self.workers == 1 and not progress.is_shown:
            self.found = [self.worked(0, 1, shared, targets, (way, progress.advance), None)]
        else:
            self.shelves = [Shelf() for _ in range(self.workers)]
            progress.follow(shared, [seen.process.name for seen in self.seen])
            self.found = workers.in_parallel(
                lambda number: self.worked(number, self.workers, shared, targets, (way, progress.advance),
                                           self.shelves[number]),
                self.workers, progress.look, lambda: self.interrupted(shared))
            progress.clear()
        self.take_together()

    def interrupted(self, shared: workers.Shared) -> None:
        """The first interruption ends the reading, the second all."""
        if shared.is_stopped():
            raise KeyboardInterrupt
        shared.stop()

    def worked(self, number: int, count: int, shared: workers.Shared, targets: list[Target], of: tuple,
               shelf: Shelf | None) -> Found:
        """The work of one worker."""
        way, told = of
        done = 0

        def advance(pages: int, owner: int) -> None:
            nonlocal done
            done += pages
            shared.set(number, done, owner)
            told(pages, self.seen[owner].process.name)

        walk = Walk(targets, self.frames, (self.reader, self.sampler), self.piles, self.rate and self.rate / count)
        rounds = self.plan.rounds(number, count)
        way(walk, lambda visit: walk.through(rounds, visit, advance, shared.is_stopped))
        walk.close()
        size = walk.size()
        piles = {kind: shelf.lay(getattr(walk, kind)) if shelf else getattr(walk, kind) for kind in KINDS}
        sure = self.sampler.sure if self.sampler else set()
        return Found(piles, walk.empty, walk.split, dict(walk.counts), walk.rounds, size, sure, walk.on_nodes)

    def take_together(self) -> None:
        """Adds up what the workers met of each process, and finds which grew."""
        self.rounds = min(found.rounds for found in self.found)
        self.sure = set().union(*(found.sure for found in self.found))
        if not self.rounds:
            raise KeyboardInterrupt
        for found in self.found:
            for owner, counts in found.counts.items():
                self.seen[owner].counts.add(counts)
        for seen in self.seen:
            seen.pages = 0 if seen.has_ended else seen.counts.pages
            if not seen.has_ended and not seen.pinned.is_whole:
                self.note_growth(seen)

    def note_growth(self, seen: Seen) -> None:
        """Notes by how much a process grew while it was read."""
        try:
            with seen.process.opened() as folder:
                now = space_of(folder, self.only_marked, False).pages
                seen.grown = now - seen.space.pages
        except (Ended, PermissionError):
            seen.counts.has_ended, seen.pages = True, 0

    @property
    def is_interrupted(self) -> bool:
        """Tells whether some rounds were not read."""
        return self.rounds < ROUNDS

    def part_read(self) -> float:
        """How much of the memory was read, 1 being all."""
        return min(sum(seen.counts.pages for seen in self.seen) / max(self.pages(), 1), 1)

    def owner_of(self, tag: int) -> int | None:
        """The process of a tag; None where it ended, or its block's round was not read to its end."""
        block = block_of(tag)
        owner = self.plan.owners[block]
        return None if self.plan.turns[block] >= self.rounds or self.seen[owner].has_ended else owner

    @functools.cached_property
    def zeroed(self) -> dict[int, int]:
        """The pages of each process that KSM mapped from the kernel's page of zeroes. Where the kernel does not tell
        them, all pages of marked memory that are mapped so are taken for such, if use_zero_pages is 1."""
        found = {}
        for owner, seen in enumerate(self.seen):
            told = seen.told.zeroed
            times = (seen.counts.zero_mapped if self.are_zeroes_taken else 0) if told is None else told
            if times and not seen.has_ended:
                found[owner] = times
        return found

    def are_zeroes_told(self) -> bool:
        """Tells whether pages that KSM mapped from the page of zeroes are told from memory never written."""
        return not self.are_zeroes_taken or all(seen.told.zeroed is not None for seen in self.seen)

    def pile(self, kind: str, number: int) -> list[Pile]:
        """The piles of a number, one of each worker."""
        if not self.shelves:
            return [found.piles[kind].piles[number] for found in self.found]
        return [shelf.take(found.piles[kind][number]) for shelf, found in zip(self.shelves, self.found)]

    def zeroes(self, kind: str) -> "collections.Counter[tuple[int, int]]":
        """The zeroes that one process maps (`empty`), or those of them in huge pages (`split`), by process and
        node."""
        told: collections.Counter[tuple[int, int]] = collections.Counter()
        for found in self.found:
            for tag, times in getattr(found, kind).items():
                owner = self.owner_of(tag)
                if owner is not None:
                    told[owner, node_of(tag)] += times
        return told

    def zeroes_by_turn(self) -> "collections.Counter[int]":
        """The zeroes that one process maps, by round."""
        told: collections.Counter[int] = collections.Counter()
        for found in self.found:
            for tag, times in found.empty.items():
                if self.owner_of(tag) is not None:
                    told[self.plan.turns[block_of(tag)]] += times
        return told

    def pages_by_node(self) -> "collections.Counter[int]":
        """The pages in the piles, and the zeroes, on each node."""
        told: collections.Counter[int] = collections.Counter()
        for found in self.found:
            told.update(found.on_nodes)
        return told

    def close(self) -> None:
        """Gives the memory of the piles back."""
        for shelf in self.shelves:
            shelf.close()
        self.shelves = []

    def bytes_a_page(self) -> float:
        """The bytes that the digests took, for each page that was read."""
        return sum(found.bytes for found in self.found) / max(sum(seen.counts.pages for seen in self.seen), 1)

    def are_nodes_told(self) -> bool:
        """Tells whether the node of every page was learnt."""
        return not any(seen.counts.are_nodes_unknown for seen in self.seen)


def checked(look: Look) -> None:
    """Refuses a look that met no page."""
    if not any(seen.pages or seen.counts.zero_mapped or seen.counts.pinned for seen in look.seen):
        raise Trouble(nothing(look))


def nothing(look: Look) -> str:
    """Why there is no page to be counted."""
    if all(seen.has_ended for seen in look.seen):
        return "each process ended while it was read"
    if any(seen.counts.changed for seen in look.seen):
        return "all of their memory changed between the two looks"
    if look.only_marked:
        return "none of their memory is marked for KSM: without --mergeable all that could be marked is counted"
    return "they have no anonymous memory that KSM could merge"
