"""The digests of all pages, 8 bytes a page, and where they were read.

Digests lie in piles by their lowest bits, so that equal pages are in one pile, and one pile at a time is taken
apart. Pages are added block by block; behind each block every pile that grew notes how far it reaches, with a tag:
the number of the block and the node of its pages. Pages of a fork and merged ones have a second number each: their
frame.
"""

import array
import itertools
import os
import pickle
from collections.abc import Iterator

# records of a pile, about, and the most piles
RECORDS, MOST = 1 << 17, 1 << 10
NODE_BITS = 8
# how many pages of each process, on each node, have a content
Owners = dict[tuple[int, int], int]


def tag_of(block: int, node: int) -> int:
    """The number of a block and a node as one number."""
    return block << NODE_BITS | node


def block_of(tag: int) -> int:
    """The block of a tag."""
    return tag >> NODE_BITS


def node_of(tag: int) -> int:
    """The node of a tag."""
    return tag & ((1 << NODE_BITS) - 1)


def piles_for(pages: int) -> int:
    """How many piles so many pages want: a power of two."""
    return min(1 << max(pages // RECORDS, 1).bit_length() - 1, MOST)


class Pile:
    """Digests in the order in which they came, a second number for each where there is one, and the tags, each
    with the place behind its last digest."""

    def __init__(self):
        self.digests = array.array("q")
        self.seconds = array.array("Q")
        self.tags = array.array("Q")
        self.ends = array.array("Q")

    def stretches(self) -> Iterator[tuple[int, int, int]]:
        """Each stretch of digests of one tag: the tag, its first place, and the place behind its last."""
        return zip(self.tags, itertools.chain((0,), self.ends), self.ends)


class Piles:
    """All piles of one kind of pages, which grow."""

    def __init__(self, count: int):
        self.mask = count - 1
        self.piles = [Pile() for _ in range(count)]
        self.appends = [pile.digests.append for pile in self.piles]
        self.tag = -1
        self.has_grown = False

    def begin(self, tag: int) -> None:
        """What is added from here on has a tag."""
        if tag != self.tag:
            self.close()
            self.tag = tag

    def add(self, digests: "array.array[int] | list[int]") -> None:
        """Adds pages without a second number."""
        appends, mask, self.has_grown = self.appends, self.mask, True
        for digest in digests:
            appends[digest & mask](digest)

    def add_one(self, digest: int, second: int) -> None:
        """Adds a page with its second number."""
        pile, self.has_grown = self.piles[digest & self.mask], True
        pile.digests.append(digest)
        pile.seconds.append(second)

    def close(self) -> None:
        """Each pile that grew notes the tag."""
        for pile in self.piles if self.has_grown else ():
            if len(pile.digests) > (pile.ends[-1] if pile.ends else 0):
                pile.tags.append(self.tag)
                pile.ends.append(len(pile.digests))
        self.has_grown = False

    def size(self) -> int:
        """The bytes that the records take."""
        parts = ((pile.digests, pile.seconds, pile.tags, pile.ends) for pile in self.piles)
        return sum(len(part) * part.itemsize for pile in parts for part in pile)


class Shelf:
    """Piles laid down in memory that other processes read, so that they outlast the one who made them."""

    def __init__(self):
        self.file = os.memfd_create("piles")
        self.at = 0

    def lay(self, piles: Piles) -> list[tuple[int, int]]:
        """Lays down all piles, each of which is dropped then. Where each is, and its length."""
        places = []
        for number, pile in enumerate(piles.piles):
            bytes_ = pickle.dumps((pile.digests, pile.seconds, pile.tags, pile.ends), 5)
            piles.piles[number] = None
            written = 0
            while written < len(bytes_):
                written += os.pwrite(self.file, memoryview(bytes_)[written:], self.at + written)
            places.append((self.at, len(bytes_)))
            self.at += len(bytes_)
        piles.appends.clear()
        return places

    def take(self, place: tuple[int, int]) -> Pile:
        """A pile that was laid down."""
        at, length = place
        found = bytearray()
        while len(found) < length:
            found += os.pread(self.file, length - len(found), at + len(found))
        pile = Pile()
        pile.digests, pile.seconds, pile.tags, pile.ends = pickle.loads(found)
        return pile

    def close(self) -> None:
        """Gives the memory back."""
        os.close(self.file)

