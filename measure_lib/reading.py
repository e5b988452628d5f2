"""The bytes of pages, and the digests that stand for them from there on: 64 bits with a key of this run.

Whoever fills the pages that are read does not know the key, so he can't make two that differ and have one digest,
and the digests of two runs tell nothing of each other. The digest is SipHash, which is Python's own hash of bytes,
keyed at random as Python starts; where Python has another hash, or a key from outside, it is BLAKE2b, which is
several times slower.
"""

import array
import hashlib
import os
import struct
import sys
from collections.abc import Callable

from .trouble import Ended
from .units import MEGABYTE, PAGE

# how many pages are read at once: 1 MB
MOST_PAGES = MEGABYTE // PAGE


def blake2b() -> Callable[[bytes], int]:
    """The slower digest, with a key of its own."""
    key, make, number = os.urandom(32), hashlib.blake2b, int.from_bytes
    return lambda page: number(make(page, digest_size=8, key=key).digest(), "little", signed=True)


def digest_of() -> Callable[[bytes], int]:
    """The digest of this run: Python's own hash where its key is of chance and has 128 bits."""
    info = sys.hash_info
    is_keyed = info.algorithm in ("siphash13", "siphash24") and info.hash_bits == 64 and info.seed_bits == 128
    is_of_chance = sys.flags.hash_randomization and os.environ.get("PYTHONHASHSEED", "random") in ("", "random")
    return hash if is_keyed and is_of_chance else blake2b()


class Reader:
    """Reads the memory of processes into one buffer, and makes digests."""

    def __init__(self):
        self.digest = digest_of()
        self.buffer = memoryview(bytearray(MEGABYTE))
        self.zeroes = self.digest(bytes(PAGE))
        self.layouts = [struct.Struct(f"{PAGE}s" * count) for count in range(MOST_PAGES + 1)]

    def digests(self, memory: int, first: int, count: int) -> "array.array[int] | list[int | None]":
        """The digests of at most 1 MB of pages; None for one that can't be read any more."""
        view = self.buffer[:count * PAGE]
        try:
            read = os.preadv(memory, [view], first * PAGE)
        except OSError:
            read = -1
        if read == 0:
            raise Ended
        if read == len(view):
            return array.array("q", map(self.digest, self.layouts[count].unpack(view)))
        if count > 1:
            return [digest for page in range(first, first + count) for digest in self.digests(memory, page, 1)]
        return [None]
