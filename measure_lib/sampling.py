"""Which contents a sample takes, so that a content is in it with all of its pages or with none.

A key of 64 bytes, in four pieces at places of chance, decides: pages that are equal have one key. The page is copied,
but not hashed as a whole unless its key is taken; that takes less than half the time, and for the digests the part of
the memory that is asked for. A key of zeroes says little, so there the whole page decides. Zeroes are all counted.

Contents that many pages have would come by chance or not, and count for much. A few blocks of addresses are read
first: keys that are met there several times are taken for sure, and count once; the others count as many times as
the part goes into the whole.
"""

import array
import collections
import os
import random
import struct
from collections.abc import Callable, Iterable

from .trouble import Ended
from .units import MEGABYTE, PAGE

# the pieces of a key, one from each such part of a page, and the bytes of each
PIECES, PIECE = 4, 16
# of 64 bits these decide
BITS = 30
# a key that the first blocks have so many times is taken for sure
SURE = 4
# of all pages this part is read first, at least and at most so many
FIRST, LEAST, MOST = 0.02, 20000, 1 << 18


def layout_of_keys() -> str:
    """The pieces of a page that are its key, at places of chance, and what lies between them."""
    part, chance, layout = PAGE // PIECES, random.SystemRandom(), ""
    for _ in range(PIECES):
        before = chance.randrange(part - PIECE + 1)
        layout += f"{before}x{PIECE}s{part - PIECE - before}x"
    return layout


class Sampler:
    """Reads pages, and makes digests of those that the sample takes."""

    def __init__(self, part: float, digest: Callable[[bytes], int]):
        self.part, self.digest = part, digest
        self.bound = int(part * (1 << BITS))
        self.layout = struct.Struct(layout_of_keys())
        self.view = memoryview(bytearray(MEGABYTE))
        self.empty = bytes(PAGE)
        self.zeroes = digest(self.empty)
        self.empty_key = self.digest(bytes(PIECES * PIECE))
        self.first = FIRST
        self.sure_keys: set[int] = set()
        self.sure: set[int] = set()

    def keys(self, memory: int, first: int, count: int) -> "array.array[int] | None":
        """The keys of at most 1 MB of pages, which are in the buffer then; None where they can't be read."""
        try:
            read = os.preadv(memory, [self.view[:count * PAGE]], first * PAGE)
        except OSError:
            read = -1
        if read == 0:
            raise Ended
        if read != count * PAGE:
            return None
        pieces = self.layout.iter_unpack(self.view[:count * PAGE])
        return array.array("q", map(self.digest, map(b"".join, pieces)))

    def take_for_sure(self, keys: Iterable[int], first: float) -> None:
        """Takes the keys for sure that are there several times, in a part of all memory."""
        self.first = first
        times = collections.Counter(keys)
        self.sure_keys = {key for key, count in times.items() if count >= SURE and key != self.empty_key}

    def taken(self, keys: "array.array[int]") -> list[tuple[int, int]]:
        """Of the pages in the buffer those that the sample takes, by their places, with their digests. Zeroes are
        always taken."""
        mask, bound, sure, empty_key = (1 << BITS) - 1, self.bound, self.sure_keys, self.empty_key
        places = [at for at, key in enumerate(keys) if key & mask < bound or key in sure or key == empty_key]
        found = []
        for at in places:
            page = bytes(self.view[at * PAGE:(at + 1) * PAGE])
            if page == self.empty:
                found.append((at, self.zeroes))
                continue
            digest = self.digest(page)
            if keys[at] == empty_key and digest & mask >= bound:
                continue
            if keys[at] in sure:
                self.sure.add(digest)
            found.append((at, digest))
        return found
