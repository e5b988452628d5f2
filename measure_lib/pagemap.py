"""Which pages are anonymous and in memory, from /proc/PID/pagemap and, for root, /proc/kpageflags.

Each page is one letter, so that runs of pages are found by a pattern: `1` where one process alone maps it, `2`
where several do since a fork, `k` where KSM merged it, `z` where it is the kernel's page of zeroes, `.` where it is
none of these. Only root is told frames, and so sees `k` and `z`; others see `2` in their place.
"""

import contextlib
import ctypes
import mmap
import os
import re
import struct
from collections.abc import Iterator

from .trouble import Ended
from .units import PAGE

ALONE, SEVERAL, MERGED, ZERO, NONE = b"12kz."
SHARED_PAGE = re.compile(rb"2")
# how many entries are read at once: 32,768 pages are 128 MB of address space
SPAN = 1 << 15
ENTRY = 8
# bits of the uppermost byte of an entry, and the frame in the others
PRESENT, SWAPPED, OF_FILE, EXCLUSIVE = 0x80, 0x40, 0x20, 0x01
FRAME = (1 << 55) - 1
# bits of an entry of /proc/kpageflags
IS_KSM, IS_HUGE = 1 << 21, 1 << 22
# an odd number that mixes a frame's number
MIXED = 0x9e3779b97f4a7c15
# so many frames are remembered at most
MOST_KNOWN = 1 << 20


def letter(top: int) -> int:
    """The letter of an entry by its uppermost byte."""
    if top & (PRESENT | SWAPPED | OF_FILE) != PRESENT:
        return NONE
    return ALONE if top & EXCLUSIVE else SEVERAL


LETTERS = bytes(letter(top) for top in range(256))


def entries_of(pagemap: int, first: int, count: int) -> bytes:
    """The entries of so many pages. Raises Ended where the process is gone."""
    entries = os.pread(pagemap, count * ENTRY, first * ENTRY)
    if not entries:
        raise Ended
    return entries


def frame_at(entries: bytes, at: int) -> int:
    """The frame of an entry, 0 where it is not told."""
    return int.from_bytes(entries[at * ENTRY:(at + 1) * ENTRY], "little") & FRAME


@contextlib.contextmanager
def own_frames() -> Iterator[tuple[int, int]]:
    """The frame of the kernel's page of zeroes, and one that is this program's own meanwhile. 0 where the system does
    not tell frames."""
    with (mmap.mmap(-1, 2 * PAGE, flags=mmap.MAP_PRIVATE | mmap.MAP_ANONYMOUS) as pages,
          open("/proc/self/pagemap", "rb", 0) as pagemap):
        pages.madvise(mmap.MADV_NOHUGEPAGE)
        pages.read(1)
        pages[PAGE] = 1
        held = ctypes.c_char.from_buffer(pages)
        number = ctypes.addressof(held) // PAGE
        del held
        entries = entries_of(pagemap.fileno(), number, 2)
        yield frame_at(entries, 0), frame_at(entries, 1)


class Frames:
    """What the system tells of frames: the one of zeroes, and the flags of each. To others than root it tells
    nothing. Some kernels, 6.12 among them, call each anonymous page merged, this program's own too."""

    def __init__(self):
        self.known: dict[int, int] = {}
        self.flags: int | None = None
        with own_frames() as (zero, own):
            self.zero = zero or None
            with contextlib.suppress(OSError):
                self.flags = os.open("/proc/kpageflags", os.O_RDONLY) if zero else None
            self.are_wrong = bool(self.flags_of(own) & IS_KSM)
        self.known.clear()

    @property
    def are_told(self) -> bool:
        """Tells whether merged pages are told from those of a fork."""
        return self.flags is not None and not self.are_wrong

    def flags_of(self, frame: int) -> int:
        """The flags of a frame, 0 where they are not told."""
        if self.flags is None:
            return 0
        flags = self.known.get(frame)
        if flags is None:
            if len(self.known) >= MOST_KNOWN:
                self.known.clear()
            told = os.pread(self.flags, ENTRY, frame * ENTRY)
            flags = self.known[frame] = struct.unpack("Q", told)[0] if len(told) == ENTRY else 0
        return flags

    def letters(self, entries: bytes, first: int, merged: float) -> bytes:
        """A letter for each entry from a page on. Where the flags do not tell merged pages, this part of those that
        several map is taken for merged: the same frames, or else addresses, in each process."""
        told = entries[7::8].translate(LETTERS)
        if SEVERAL not in told:
            return told
        changed, doubtful = bytearray(told), []
        for found in SHARED_PAGE.finditer(told):
            at, frame = found.start(), frame_at(entries, found.start())
            if frame and frame == self.zero:
                changed[at] = ZERO
            elif not self.are_told:
                doubtful.append((((frame or first + at) * MIXED) % (1 << 64), at))
            elif self.flags_of(frame) & IS_KSM:
                changed[at] = MERGED
        for _, at in sorted(doubtful)[:round(merged * len(doubtful))]:
            changed[at] = MERGED
        return bytes(changed)


def spans(first: int, end: int) -> Iterator[tuple[int, int]]:
    """Stretches of pages whose entries are read at once: the first page of each, and how many."""
    return ((start, min(SPAN, end - start)) for start in range(first, end, SPAN))
