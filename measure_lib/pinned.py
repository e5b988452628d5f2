"""Pages that a device or the kernel holds on to, which KSM does not merge: it takes a page only where nobody but
page tables refers to it.

The kernel tells how many pages of a process are pinned (VmPin), but not which. What io_uring registered it does
tell (fdinfo). A process with a device passed through (VFIO) has all of its guest's memory pinned; those of RDMA and
of iommufd have what VmPin says.
"""

import dataclasses
import os
import re

from .processes import text_of
from .units import PAGE

# what a descriptor leads to, and what it is called
HOLDERS = [(re.compile(r"^/dev/vfio/(?!vfio$)|^anon_inode:\[?vfio"), "VFIO"), (re.compile(r"^/dev/iommu$"), "iommufd"),
           (re.compile(r"^/dev/infiniband/uverbs"), "RDMA"), (re.compile(r"^anon_inode:\[io_uring\]"), "io_uring"),
           (re.compile(r"^/dev/vhost-vdpa"), "vDPA")]
WHOLE = {"VFIO"}
VM_PIN = re.compile(r"^VmPin:\s+(\d+) kB", re.MULTILINE)
BUFFER = re.compile(r"^ *\d+: 0x([0-9a-f]+)/(\d+)$", re.MULTILINE)


@dataclasses.dataclass
class Pinned:
    """What of a process is pinned: how many pages the kernel tells, by what, which stretches of pages are known,
    and whether all of its memory has to be taken for pinned."""
    pages: int = 0
    by: tuple[str, ...] = ()
    known: tuple[tuple[int, int], ...] = ()
    is_whole: bool = False

    def has(self, page: int) -> bool:
        """Tells whether a page is known to be pinned."""
        return self.is_whole or any(first <= page < end for first, end in self.known)


def buffers(text: str) -> list[tuple[int, int]]:
    """The stretches of pages of the buffers that an io_uring has registered, from its fdinfo."""
    found = []
    for address, length in BUFFER.findall(text.partition("UserBufs:")[2].partition("PollList")[0]):
        first, end = int(address, 16), int(address, 16) + int(length)
        found.append((first // PAGE, -(-end // PAGE)))
    return found


def pinned_of(folder: int) -> Pinned:
    """What of the process of a folder is pinned."""
    said = VM_PIN.search(text_of(folder, "status"))
    by: set[str] = set()
    known: list[tuple[int, int]] = []
    for name in descriptors(folder):
        by |= (kinds := holders(folder, name))
        if "io_uring" in kinds:
            known += buffers(text_of(folder, f"fdinfo/{name}"))
    pages = int(said[1]) * 1024 // PAGE if said else 0
    return Pinned(pages, tuple(sorted(by)), tuple(sorted(known)), bool(by & WHOLE))


def descriptors(folder: int) -> list[str]:
    """The descriptors of a process, by their numbers. None where this user may not see them."""
    try:
        listed = os.open("fd", os.O_RDONLY | os.O_DIRECTORY, dir_fd=folder)
    except OSError:
        return []
    try:
        return os.listdir(listed)
    finally:
        os.close(listed)


def holders(folder: int, name: str) -> set[str]:
    """What a descriptor of a process is called, where it may pin memory."""
    try:
        leads_to = os.readlink(f"fd/{name}", dir_fd=folder)
    except OSError:
        return set()
    return {called for pattern, called in HOLDERS if pattern.search(leads_to)}
