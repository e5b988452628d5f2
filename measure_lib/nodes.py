"""On which NUMA node a page lies.

Where the machine has several nodes, /proc/PID/numa_maps tells for each area how many of its pages lie on which;
an area on one node alone needs no more. Of the others the system call move_pages, which moves nothing without
targets, tells each page's.
"""

import ctypes
import os
import re
from pathlib import Path

from .processes import text_of
from .units import PAGE

WITH_MEMORY = Path("/sys/devices/system/node/has_memory")
# the number of the system call move_pages
MOVE_PAGES = {"x86_64": 279, "aarch64": 239, "riscv64": 239, "loongarch64": 239, "ppc64le": 301, "s390x": 310}
AREA = re.compile(r"([0-9a-f]+) ")
ON_NODE = re.compile(r" N(\d+)=")


def numbers_in(listed: str) -> list[int]:
    """The numbers of a list as the kernel writes it, such as `0-1,4`."""
    found: list[int] = []
    for part in listed.strip().split(","):
        first, _, last = part.partition("-")
        if first:
            found.extend(range(int(first), int(last or first) + 1))
    return found


def nodes_of_machine() -> list[int]:
    """The nodes that have memory; one, 0, where the system has no nodes."""
    return (numbers_in(WITH_MEMORY.read_text()) if WITH_MEMORY.exists() else []) or [0]


def nodes_of_areas(folder: int) -> dict[int, int | None]:
    """The node of each area by its first page, None where its pages lie on several. Empty where the system does
    not tell."""
    told: dict[int, int | None] = {}
    try:
        lines = text_of(folder, "numa_maps").splitlines()
    except OSError:
        return told
    for line in lines:
        area, nodes = AREA.match(line), ON_NODE.findall(line)
        if area and nodes:
            told[int(area[1], 16) // PAGE] = int(nodes[0]) if len(nodes) == 1 else None
    return told


class Nodes:
    """The nodes of the pages of one process. `is_told` falls where a page's node could not be learnt and the
    first was taken."""

    def __init__(self, pid: int, folder: int, of_machine: list[int]):
        self.pid = pid
        self.default = of_machine[0]
        self.is_told = True
        self.areas = nodes_of_areas(folder) if len(of_machine) > 1 else {}
        self.is_single = len(of_machine) == 1

    def of(self, area: int, first: int, count: int) -> bytes:
        """The node of each of so many pages of the area that begins with a page."""
        node = self.default if self.is_single else self.areas.get(area)
        return bytes([node]) * count if node is not None else self.asked(first, count)

    def asked(self, first: int, count: int) -> bytes:
        """The same from the system call."""
        pages = (ctypes.c_void_p * count)(*range(first * PAGE, (first + count) * PAGE, PAGE))
        found = (ctypes.c_int * count)(*([-1] * count))
        number = MOVE_PAGES.get(os.uname().machine)
        call = ctypes.CDLL(None, use_errno=True).syscall
        if number is None or call(number, self.pid, ctypes.c_ulong(count), pages, None, found, 0) < 0:
            found = (ctypes.c_int * count)(*([-1] * count))
        if min(found) < 0:
            self.is_told = False
        return bytes(node if node >= 0 else self.default for node in found)
