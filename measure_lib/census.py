"""How often each content is there, and who has it; how many frames of it several processes map since a fork; and
how many of its pages KSM merged already.

A page of a content is a frame that nobody merged, whoever maps it, or a place that is mapped from a merged frame:
so many frames there would be without KSM.
"""

import collections
import dataclasses
import heapq
import itertools
from collections.abc import Iterator

from . import workers
from .look import Look
from .piles import Owners, Pile, block_of, node_of

HEAVIEST = 10


@dataclasses.dataclass(order=True)
class Heavy:
    """A content that many pages have: how many, and whose they are."""
    copies: int
    number: int
    is_zero: bool = dataclasses.field(compare=False)
    owners: Owners = dataclasses.field(compare=False)


@dataclasses.dataclass
class Content:
    """The pages of one content: by process and node, and for each process how many pages since a fork map a frame
    that is another process's already. Of the pages some are mapped from so many merged frames."""
    owners: Owners = dataclasses.field(default_factory=dict)
    again: int = 0
    merged: int = 0
    frames: int = 0

    def add(self, owner: int, node: int, times: int) -> None:
        """Adds pages of a process."""
        self.owners[owner, node] = self.owners.get((owner, node), 0) + times


class Census:
    """Contents by the number of their copies, zeroes apart, for all nodes together and for each node by itself;
    those with frames of a fork, by copies and by the places beyond them that map such a frame; the heaviest
    contents; and of the processes that are shown which have contents in common. Of the pages of zeroes so many are
    mapped from the kernel's own page already."""

    def __init__(self, shown: list[int]):
        self.together: collections.Counter[int] = collections.Counter()
        self.forked: collections.Counter[tuple[int, int]] = collections.Counter()
        self.again: collections.Counter[int] = collections.Counter()
        self.repeated: collections.Counter[int] = collections.Counter()
        self.within: collections.Counter[int] = collections.Counter()
        self.common: collections.Counter[int] = collections.Counter()
        self.histograms: dict[int, collections.Counter[int]] = collections.defaultdict(collections.Counter)
        self.merged_pages = self.merged_frames = self.zeroed = 0
        self.heaviest: list[Heavy] = []
        self.sure: Census | None = None
        self.empty = Content()
        self.contents = 0
        self.shown = {owner: 1 << place for place, owner in enumerate(shown)}

    @property
    def of_sure(self) -> "Census":
        """Where a content that a sample takes for sure is counted."""
        return self.sure or self

    def add_single(self, contents: int, node: int) -> None:
        """So many contents have one page each, on a node."""
        self.together[1] += contents
        self.histograms[node][1] += contents

    def add_alone(self, owner: int, node: int, copies: "collections.Counter[int]") -> None:
        """Contents that one process has alone, on one node, each several times."""
        pages, sizes = copies.total(), collections.Counter(copies.values())
        self.together.update(sizes)
        self.histograms[node].update(sizes)
        self.repeated[owner] += pages
        self.within[owner] += pages - len(copies)
        for _, times in heapq.nlargest(HEAVIEST, copies.items(), key=lambda one: one[1]):
            self.note_heavy(times, False, {(owner, node): times})

    def add(self, content: Content, is_zero: bool = False) -> None:
        """A content, and whose its pages are."""
        by_node: collections.Counter[int] = collections.Counter()
        by_owner: collections.Counter[int] = collections.Counter()
        for (owner, node), times in content.owners.items():
            by_node[node] += times
            by_owner[owner] += times
        copies = by_node.total()
        self.merged_pages += content.merged
        self.merged_frames += content.frames
        if is_zero:
            self.empty = content
        else:
            self.together[copies] += 1
            for node, times in by_node.items():
                self.histograms[node][times] += 1
            if content.again:
                self.forked[copies, content.again] += 1
        if copies > 1:
            self.note_owners(by_owner)
            self.note_heavy(copies, is_zero, content.owners)

    def note_owners(self, by_owner: "collections.Counter[int]") -> None:
        """Notes who has copies of a content."""
        self.repeated.update(by_owner)
        mask = 0
        for owner, times in by_owner.items():
            self.within[owner] += times - 1
            mask |= self.shown.get(owner, 0)
        if mask & (mask - 1):
            self.common[mask] += 1

    def note_heavy(self, copies: int, is_zero: bool, owners: Owners) -> None:
        """Keeps a content that is one of the heaviest."""
        self.contents += 1
        self.keep(Heavy(copies, self.contents, is_zero, owners))

    def keep(self, heavy: Heavy) -> None:
        """Keeps a heavy content while no ten are heavier."""
        if len(self.heaviest) < HEAVIEST:
            heapq.heappush(self.heaviest, heavy)
        elif heavy > self.heaviest[0]:
            heapq.heapreplace(self.heaviest, heavy)

    def merge(self, other: "Census") -> None:
        """Adds the census of other piles."""
        for name in "together", "forked", "again", "repeated", "within", "common":
            getattr(self, name).update(getattr(other, name))
        for node, histogram in other.histograms.items():
            self.histograms[node].update(histogram)
        self.merged_pages += other.merged_pages
        self.merged_frames += other.merged_frames
        for heavy in other.heaviest:
            self.contents += 1
            self.keep(dataclasses.replace(heavy, number=self.contents))
        if other.empty.owners:
            self.empty = other.empty
        if self.sure and other.sure:
            self.sure.merge(other.sure)

    def scaled(self, by: float) -> "Census":
        """The census of as many contents of each kind."""
        found = Census([])
        found.shown = self.shown
        for name in "together", "forked", "again", "repeated", "within", "common":
            getattr(found, name).update({key: times * by for key, times in getattr(self, name).items()})
        for node, histogram in self.histograms.items():
            found.histograms[node].update({key: times * by for key, times in histogram.items()})
        found.merged_pages, found.merged_frames = self.merged_pages * by, self.merged_frames * by
        found.heaviest = self.heaviest
        return found

    def pages(self) -> int:
        """All pages that were counted."""
        return sum(copies * contents for copies, contents in self.together.items()) + self.zeroes()

    def zeroes(self) -> int:
        """The pages of zeroes."""
        return sum(self.empty.owners.values())

    def zeroes_by_node(self) -> "collections.Counter[int]":
        """The pages of zeroes on each node."""
        found: collections.Counter[int] = collections.Counter()
        for (_, node), times in self.empty.owners.items():
            found[node] += times
        return found

    def mapped_again(self) -> int:
        """The places that map a frame of another process's since a fork, of all contents."""
        return self.again.total()

    def matrix(self) -> list[list[int]]:
        """For the processes shown: how many frames merging two of them saves beyond what each saves alone,
        which is how many contents they have in common; and on the diagonal what each saves alone."""
        places = range(len(self.shown))
        rows = [[0] * len(places) for _ in places]
        for owner, mask in self.shown.items():
            place = mask.bit_length() - 1
            rows[place][place] = self.within[owner]
        for mask, contents in self.common.items():
            having = [place for place in places if mask >> place & 1]
            for i in having:
                for j in having:
                    if i != j:
                        rows[i][j] += contents
        return rows


Stretch = tuple[int, int, "list[int]", "list[int]"]


def stretches(look: Look, piles: list[Pile]) -> Iterator[Stretch]:
    """Each stretch of digests of the processes that go on: the process, the node, the digests and the seconds."""
    for pile in piles:
        for tag, begin, end in pile.stretches():
            owner = look.owner_of(tag)
            if owner is not None:
                yield owner, node_of(tag), pile.digests[begin:end], pile.seconds[begin:end]


def stretches_of_blocks(look: Look, piles: list[Pile]) -> Iterator[tuple[int, int, int, "list[int]", "list[int]"]]:
    """The same by blocks: the unit that was drawn, its round, the node, the digests and the seconds."""
    for pile in piles:
        for tag, begin, end in pile.stretches():
            if look.owner_of(tag) is not None:
                block = block_of(tag)
                yield (look.plan.units[block], look.plan.turns[block], node_of(tag), pile.digests[begin:end],
                       pile.seconds[begin:end])


def frames_once(census: Census, look: Look, number: int, contents: dict[int, Content]) -> None:
    """Counts each frame of a fork with the first process that maps it, and with the others that they map it again."""
    frames: dict[tuple[int, int], tuple[int, int]] = {}
    for owner, node, digests, seconds in sorted(stretches(look, look.pile("forked", number)), key=lambda one: one[0]):
        for frame in zip(digests, seconds):
            if frame in frames:
                census.again[owner] += 1
                contents[frame[0]].again += 1
            else:
                frames[frame] = owner, node
                contents[frame[0]].add(owner, node, 1)


def merged(look: Look, number: int, contents: dict[int, Content], limit: int) -> None:
    """Counts the pages that are merged already, and the frames that serve them. Without frames told they are as
    many as the limit makes them."""
    frames: set[tuple[int, int]] = set()
    by_digest: collections.Counter[int] = collections.Counter()
    for owner, node, digests, seconds in stretches(look, look.pile("merged", number)):
        frames.update(zip(digests, seconds))
        by_digest.update(digests)
        for digest, times in collections.Counter(digests).items():
            contents[digest].add(owner, node, times)
    of_digest = collections.Counter(digest for digest, frame in frames if frame)
    for digest, times in by_digest.items():
        contents[digest].merged += times
        contents[digest].frames += of_digest[digest] or -(-times // limit)


def by_owner(own: list[Stretch], several: set[int]) -> Iterator[tuple[int, int, "collections.Counter[int]"]]:
    """Of each process on each node how often it has the digests that are there several times."""
    def key(one: Stretch) -> tuple[int, int]:
        return one[:2]

    for (owner, node), together in itertools.groupby(sorted(own, key=key), key):
        mine: collections.Counter[int] = collections.Counter()
        for _, _, digests, _ in together:
            mine.update(filter(several.__contains__, digests))
        yield owner, node, mine


def count_own(census: Census, own: list[Stretch], contents: dict[int, Content], sure: set[int]) -> None:
    """Counts the pages that one process maps: those of contents that are there once only as a number, those of
    contents that one process has alone all at once, and the others content by content."""
    copies: collections.Counter[int] = collections.Counter()
    for _, _, digests, _ in own:
        copies.update(digests)
    apart = sure & copies.keys() | contents.keys()
    several = {digest for digest, times in copies.items() if times > 1} | apart
    parts = list(by_owner(own, several))
    met, common = set(), apart
    for _, _, mine in parts:
        common |= met & mine.keys()
        met |= mine.keys()
    for owner, node, mine in parts:
        for digest in common & mine.keys():
            contents[digest].add(owner, node, mine.pop(digest))
        census.add_alone(owner, node, mine)
    singles: collections.Counter[int] = collections.Counter()
    for _, node, digests, _ in own:
        singles[node] += len(digests) - sum(map(several.__contains__, digests))
    for node, times in singles.items():
        census.add_single(times, node)


def count_pile(census: Census, look: Look, number: int, limit: int) -> None:
    """Adds the contents of a pile. Those that a sample takes for sure are told apart."""
    contents: dict[int, Content] = collections.defaultdict(Content)
    frames_once(census, look, number, contents)
    merged(look, number, contents, limit)
    count_own(census, list(stretches(look, look.pile("own", number))), contents, look.sure)
    zeroes = look.reader.zeroes
    if zeroes in contents:
        census.empty = contents.pop(zeroes)
    for digest, content in contents.items():
        (census.of_sure if digest in look.sure else census).add(content)


def census_of(look: Look, shown: list[int], limit: int) -> Census:
    """The census of all pages; the processes that are shown are told by their numbers, and the limit is how many
    pages a merged frame serves at most as the machine is set."""
    count = min(look.workers, look.piles)

    def part(number: int) -> Census:
        census = Census(shown)
        census.sure = Census(shown) if look.sampler else None
        for pile in range(number, look.piles, count):
            count_pile(census, look, pile, limit)
        return census

    census = Census(shown)
    if look.sampler:
        census.sure = Census(shown)
    for other in [part(0)] if count == 1 else workers.in_parallel(part, count):
        census.merge(other)
    for (owner, node), times in look.zeroes("empty").items():
        census.empty.add(owner, node, times)
    for owner, times in look.zeroed.items():
        census.empty.add(owner, look.nodes[0], times)
    told, empty = census.of_sure, census.empty
    census.empty, told.zeroed = Content(), sum(look.zeroed.values())
    if empty.owners:
        told.add(empty, is_zero=True)
    return census
