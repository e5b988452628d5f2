"""What one worker does: it reads its blocks, round by round, and puts the digests of their pages into piles.

A process that ends meanwhile is left out whole; it stops nobody.
"""

import array
import collections
import contextlib
import dataclasses
import itertools
import os
import re
import time
from collections.abc import Callable, Iterator

from . import pagemap
from .areas import Area
from .blocks import BOTH, COMMON, OWN, Block
from .nodes import Nodes
from .pagemap import ALONE, MERGED, SEVERAL, Frames
from .piles import Piles, tag_of
from .pinned import Pinned
from .processes import Process, open_in
from .reading import MOST_PAGES, Reader
from .sampling import Sampler
from .trouble import Ended
from .units import MEGABYTE, PAGE

RUNS = {OWN: re.compile(rb"[1k]+"), COMMON: re.compile(rb"2+"), BOTH: re.compile(rb"[12k]+")}
Digests = "array.array[int] | list[int | None]"


@dataclasses.dataclass
class Counts:
    """What a worker met of a process, in pages: those counted, those mapped from the kernel's page of zeroes, and
    those that were not to be read, are pinned, or between two looks changed or went; and whether the node of some
    was not told."""
    pages: int = 0
    zero_mapped: int = 0
    unread: int = 0
    pinned: int = 0
    changed: int = 0
    gone: int = 0
    are_nodes_unknown: bool = False
    has_ended: bool = False

    def add(self, other: "Counts") -> None:
        """Adds what another worker met."""
        for field in dataclasses.fields(self):
            here, there = getattr(self, field.name), getattr(other, field.name)
            setattr(self, field.name, here or there if isinstance(here, bool) else here + there)


@dataclasses.dataclass
class Target:
    """A process that is read, what of it is pinned, whether any of it is merged, and the nodes of its areas."""
    process: Process
    pinned: Pinned
    is_any_merged: bool
    nodes: Nodes


@dataclasses.dataclass
class Files:
    """A process's memory and its page map, opened."""
    memory: int
    pagemap: int


@contextlib.contextmanager
def opened(process: Process) -> Iterator[Files]:
    """The files of a process. Raises Ended where it is gone, also later."""
    with process.opened() as folder, contextlib.ExitStack() as left:
        memory = open_in(folder, "mem")
        left.callback(os.close, memory)
        map_ = open_in(folder, "pagemap")
        left.callback(os.close, map_)
        yield Files(memory, map_)


class Slow:
    """Keeps to so many megabytes a second, if any number was asked for."""

    def __init__(self, rate: float | None):
        self.rate, self.begun, self.pages = rate, time.monotonic(), 0

    def after(self, pages: int) -> None:
        """Waits as long as so many pages more may take."""
        self.pages += pages
        if self.rate:
            wait = self.begun + self.pages * PAGE / MEGABYTE / self.rate - time.monotonic()
            if wait > 0:
                time.sleep(wait)


class Walk:
    """A worker's way through its blocks, and what it found."""

    def __init__(self, targets: list[Target], frames: Frames, readers: tuple[Reader, Sampler | None], piles: int,
                 rate: float | None):
        self.targets, self.frames = targets, frames
        self.reader, self.sampler = readers
        self.own, self.forked, self.merged = Piles(piles), Piles(piles), Piles(piles)
        self.empty: collections.Counter[int] = collections.Counter()
        self.split: collections.Counter[int] = collections.Counter()
        self.counts: dict[int, Counts] = collections.defaultdict(Counts)
        self.on_nodes: collections.Counter[int] = collections.Counter()
        self.rounds = 0
        self.slow = Slow(rate)
        self.read_before: dict[int, tuple[array.array, array.array]] = {}

    def through(self, rounds: list[list[Block]], visit: Callable[[Block, Files], int],
                advance: Callable[[int, int], None], is_stopped: Callable[[], bool]) -> None:
        """Visits every block, round by round, until it is to stop, and tells how many pages each had."""
        self.rounds = 0
        for blocks in rounds:
            for owner, group in itertools.groupby(blocks, lambda block: block.owner):
                with self.whole(owner), opened(self.targets[owner].process) as files:
                    for block in group:
                        if is_stopped():
                            return
                        advance(visit(block, files), owner)
            self.rounds += 1

    @contextlib.contextmanager
    def whole(self, owner: int) -> Iterator[None]:
        """What is done in it is done to a process that goes on, or else the process is left out."""
        try:
            yield
        except (Ended, PermissionError):
            self.counts[owner].has_ended = True

    def runs(self, block: Block, files: Files) -> Iterator[tuple[int, bytes, bytes]]:
        """The runs of pages of a block that may be counted: the first of each, the letters, and the entries."""
        merged = self.merged_part(block)
        for first, count in pagemap.spans(block.first, block.end):
            entries = pagemap.entries_of(files.pagemap, first, count)
            letters = self.frames.letters(entries, first, merged)
            if block.kind != COMMON and block.area.is_marked:
                self.counts[block.owner].zero_mapped += letters.count(b"z")
            for run in RUNS[block.kind].finditer(letters):
                for at in range(run.start(), run.end(), MOST_PAGES):
                    end = min(at + MOST_PAGES, run.end())
                    yield first + at, letters[at:end], entries[at * pagemap.ENTRY:end * pagemap.ENTRY]

    def merged_part(self, block: Block) -> float:
        """The part that is taken for merged of the pages that several map, where frames do not tell it: what smaps
        says of the area (Linux 6.7), or else all where any of the process is merged."""
        area = block.area
        if not area.is_marked:
            return 0.0
        if area.merged is None:
            return float(self.targets[block.owner].is_any_merged)
        return min(area.merged / max(area.several, 1), 1.0)

    def look(self, block: Block, files: Files) -> int:
        """Reads a block, and counts it. How many pages it read."""
        pages = 0
        for first, letters, entries in self.runs(block, files):
            digests, missing = self.read(block, first, len(letters), files)
            self.counts[block.owner].pages += len(letters) - missing
            self.count(block, first, letters, entries, digests)
            self.slow.after(len(letters))
            pages += len(letters)
        return pages

    def look_before(self, block: Block, files: Files) -> int:
        """Reads a block for the first of two looks. How many pages it read."""
        pages, kept = array.array("Q"), array.array("q")
        for first, letters, _ in self.runs(block, files):
            digests, _ = self.read(block, first, len(letters), files)
            for page, digest in enumerate(digests, first):
                if digest is not None:
                    pages.append(page)
                    kept.append(digest)
            self.slow.after(len(letters))
        self.read_before[block.number] = pages, kept
        return len(pages)

    def look_again(self, block: Block, files: Files) -> int:
        """Reads a block a second time, and counts what is as it was. How many pages it read."""
        before = dict(zip(*self.read_before.pop(block.number, ((), ()))))
        counts, pages = self.counts[block.owner], len(before)
        for first, letters, entries in self.runs(block, files):
            digests, _ = self.read(block, first, len(letters), files)
            same = [digest if before.get(page) == digest else None for page, digest in enumerate(digests, first)]
            found = [page for page in range(first, first + len(letters)) if page in before]
            counts.changed += sum(same[page - first] is None and digests[page - first] is not None for page in found)
            for page in found:
                del before[page]
            counts.pages += len(same) - same.count(None)
            self.count(block, first, letters, entries, same)
            self.slow.after(len(letters))
        counts.gone += len(before)
        return pages

    def read(self, block: Block, first: int, count: int, files: Files) -> tuple[Digests, int]:
        """The digests of pages, None for those that a sample does not take, can't be read, or are pinned; and how
        many of the last two there are."""
        digests, unread = self.sampled(files, first, count) if self.sampler else self.whole_pages(files, first, count)
        counts, known = self.counts[block.owner], self.targets[block.owner].pinned.known
        counts.unread += unread
        if not any(begin < first + count and first < end for begin, end in known):
            return digests, unread
        pinned = [self.targets[block.owner].pinned.has(page) for page in range(first, first + count)]
        counts.pinned += sum(pinned)
        return [None if is_pinned else digest for digest, is_pinned in zip(digests, pinned)], unread + sum(pinned)

    def whole_pages(self, files: Files, first: int, count: int) -> tuple[Digests, int]:
        """The digests of pages, None for those that can't be read, and how many these are."""
        digests = self.reader.digests(files.memory, first, count)
        return digests, digests.count(None) if isinstance(digests, list) else 0

    def sampled(self, files: Files, first: int, count: int) -> tuple[Digests, int]:
        """The digests of the pages that the sample takes, None for the others; and how many can't be read."""
        keys = self.sampler.keys(files.memory, first, count)
        if keys is None:
            if count == 1:
                return [None], 1
            parts = [self.sampled(files, page, 1) for page in range(first, first + count)]
            return [digest for digests, _ in parts for digest in digests], sum(unread for _, unread in parts)
        digests: list[int | None] = [None] * count
        for at, digest in self.sampler.taken(keys):
            digests[at] = digest
        return digests, 0

    def count(self, block: Block, first: int, letters: bytes, entries: bytes, digests: Digests) -> None:
        """Counts pages: zeroes that one process maps as numbers, all others by their digests."""
        nodes = self.targets[block.owner].nodes
        lie_on = nodes.of(block.area.first, first, len(letters))
        self.counts[block.owner].are_nodes_unknown |= not nodes.is_told
        self.on_nodes.update(lie_on)
        if isinstance(digests, array.array) and letters.count(ALONE) == len(letters) and len(set(lie_on)) == 1:
            tag = tag_of(block.number, lie_on[0])
            if zeroes := digests.count(self.reader.zeroes):
                self.empty[tag] += zeroes
                self.note_split(block.area, tag, entries, digests)
                digests = [digest for digest in digests if digest != self.reader.zeroes]
            self.begin(tag)
            self.own.add(digests)
            return
        for at, (letter, digest) in enumerate(zip(letters, digests)):
            if digest is not None:
                self.count_one(block, tag_of(block.number, lie_on[at]), letter, digest, (entries, at, first + at))

    def count_one(self, block: Block, tag: int, letter: int, digest: int, where: tuple[bytes, int, int]) -> None:
        """Counts one page. Without frames told, zeroes that several map are taken for the kernel's own page of
        zeroes, and a page of a fork is known by its address."""
        entries, at, page = where
        is_zero = digest == self.reader.zeroes
        if is_zero and letter != ALONE and not self.frames.zero:
            self.counts[block.owner].zero_mapped += block.area.is_marked
            self.counts[block.owner].pages -= 1
            return
        self.begin(tag)
        if letter == MERGED:
            self.merged.add_one(digest, pagemap.frame_at(entries, at))
        elif letter == SEVERAL:
            self.forked.add_one(digest, pagemap.frame_at(entries, at) or page)
        elif is_zero:
            self.empty[tag] += 1
            self.note_split(block.area, tag, entries[at * pagemap.ENTRY:(at + 1) * pagemap.ENTRY], [digest])
        else:
            self.own.add([digest])

    def note_split(self, area: Area, tag: int, entries: bytes, digests: Digests) -> None:
        """Notes the zeroes that are parts of huge pages. Where frames are not told, those of an area that is huge by
        more than a half are taken for such."""
        if not area.huge:
            return
        zeroes = self.reader.zeroes
        if self.frames.flags is not None:
            places = (at for at, digest in enumerate(digests) if digest == zeroes)
            frames = (pagemap.frame_at(entries, at) for at in places)
            self.split[tag] += sum(bool(self.frames.flags_of(frame) & pagemap.IS_HUGE) for frame in frames)
        elif 2 * area.huge > area.pages:
            self.split[tag] += digests.count(zeroes)

    def begin(self, tag: int) -> None:
        """What is counted from here on has a tag."""
        for piles in self.own, self.forked, self.merged:
            piles.begin(tag)

    def close(self) -> None:
        """Notes what was counted last."""
        for piles in self.own, self.forked, self.merged:
            piles.close()

    def size(self) -> int:
        """The bytes of all digests."""
        return sum(piles.size() for piles in (self.own, self.forked, self.merged))
