"""The areas of a process's address space that KSM may take, and the memory that is left out.

KSM takes anonymous pages of private areas alone. The kernel refuses to mark an area that is shared, a device's,
mapped by raw frames, of huge TLB pages, or not to be grown (`vma_ksm_compatible`, before it `ksm_madvise`);
each of these is a flag in smaps.
"""

import dataclasses
import re
from collections.abc import Iterator

from .processes import text_of
from .units import PAGE

# flags of the line VmFlags of /proc/PID/smaps
SHARED = {"sh", "ms"}
HUGE_TLB = {"ht"}
REFUSED = SHARED | HUGE_TLB | {"pf", "io", "de", "mm", "dp"}
MARKED = "mg"
HEAD = re.compile(r"([0-9a-f]+)-([0-9a-f]+) ")
SIZE = re.compile(r"(\w+): +(\d+) kB")
PAGE_KB = PAGE // 1024


@dataclasses.dataclass
class Area:
    """A private area, by the numbers of its first page and of the page behind it: its anonymous pages, those of
    them that are parts of huge pages, those that several processes map, and those that KSM merged (None where this
    kernel does not tell)."""
    first: int
    end: int
    pages: int
    is_marked: bool
    huge: int = 0
    several: int = 0
    merged: int | None = None


@dataclasses.dataclass
class LeftOut:
    """Pages in memory that are not counted, by the reason. Those swapped out are not in memory at all."""
    of_files: int = 0
    shared: int = 0
    huge_tlb: int = 0
    swapped: int = 0
    not_marked: int = 0
    refused: int = 0

    def add(self, other: "LeftOut") -> None:
        """Adds another process's pages."""
        for field in dataclasses.fields(self):
            setattr(self, field.name, getattr(self, field.name) + getattr(other, field.name))


@dataclasses.dataclass
class Space:
    """What is to be read of a process, what of it is marked for KSM or made of huge pages, and what is left out."""
    areas: list[Area] = dataclasses.field(default_factory=list)
    marked: int = 0
    huge: int = 0
    left_out: LeftOut = dataclasses.field(default_factory=LeftOut)

    @property
    def pages(self) -> int:
        """The anonymous pages that are to be read."""
        return sum(area.pages for area in self.areas)


def entries(smaps: str) -> Iterator[tuple[int, int, dict[str, int], set[str]]]:
    """Each area of smaps: its first page, the page behind it, the sizes in pages, and its flags."""
    first = end = 0
    sizes: dict[str, int] = {}
    for line in smaps.splitlines():
        if head := HEAD.match(line):
            first, end, sizes = int(head[1], 16) // PAGE, int(head[2], 16) // PAGE, {}
        elif size := SIZE.match(line):
            sizes[size[1]] = int(size[2]) // PAGE_KB
        elif line.startswith("VmFlags:"):
            yield first, end, sizes, set(line.split()[1:])


def take(space: Space, area: Area, sizes: dict[str, int], only_marked: bool, may_be_zeroed: bool) -> None:
    """Puts an area that KSM may take among those to be read, unless it is not marked and has to be. One that is
    marked is looked at even where smaps tells no page of it, if all may be merged with the page of zeroes."""
    space.left_out.of_files += max(sizes.get("Rss", 0) - area.pages, 0)
    space.left_out.swapped += sizes.get("Swap", 0)
    if only_marked and not area.is_marked:
        space.left_out.not_marked += area.pages
    elif area.pages or (area.is_marked and may_be_zeroed):
        space.areas.append(area)
        space.marked += area.pages * area.is_marked
        space.huge += area.huge


def leave(left_out: LeftOut, sizes: dict[str, int], flags: set[str]) -> None:
    """Counts an area that KSM may not take by the reason why."""
    if flags & HUGE_TLB:
        left_out.huge_tlb += sizes.get("Private_Hugetlb", 0) + sizes.get("Shared_Hugetlb", 0)
    elif flags & SHARED:
        left_out.shared += sizes.get("Rss", 0)
    else:
        left_out.refused += sizes.get("Rss", 0)


def space_of(folder: int, only_marked: bool, may_be_zeroed: bool) -> Space:
    """What is to be read of the process of a folder, of whose pages KSM may have taken some for zeroes."""
    space = Space()
    for first, end, sizes, flags in entries(text_of(folder, "smaps")):
        if flags & REFUSED:
            leave(space.left_out, sizes, flags)
            continue
        several = sizes.get("Shared_Dirty", 0) + sizes.get("Shared_Clean", 0)
        area = Area(first, end, sizes.get("Anonymous", 0), MARKED in flags, sizes.get("AnonHugePages", 0), several,
                    sizes.get("KSM"))
        take(space, area, sizes, only_marked, may_be_zeroed)
    return space
