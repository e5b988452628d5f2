"""The kernel of this machine, and how its KSM is set now."""

import dataclasses
import os
import re
from pathlib import Path

KSM = Path("/sys/kernel/mm/ksm")
KNOBS = ["run", "pages_to_scan", "sleep_millisecs", "max_page_sharing", "use_zero_pages", "merge_across_nodes",
         "smart_scan", "pages_shared", "pages_sharing", "pages_unshared", "pages_volatile", "ksm_zero_pages",
         "full_scans", "pages_skipped", "general_profit", "advisor_target_scan_time", "advisor_max_cpu",
         "advisor_min_pages_to_scan", "advisor_max_pages_to_scan"]
# the first release in which to split a huge page gives the zeroes among its parts back
SPLITS_ZEROES = (6, 12)
CHOSEN = re.compile(r"\[(\S+)\]")


@dataclasses.dataclass
class Kernel:
    """The release, the numbers of the nodes that have memory, the knobs and counters that this kernel has, and what
    sets pages_to_scan by itself (`none`, `scan-time`, or nothing where there is no advisor)."""
    release: str
    nodes: list[int]
    ksm: dict[str, int]
    advisor: str = ""

    def splits_zeroes(self) -> bool:
        """Tells whether zeroes of a huge page that is split are given back, whatever KSM's knobs are."""
        found = re.match(r"(\d+)\.(\d+)", self.release)
        return bool(found) and (int(found[1]), int(found[2])) >= SPLITS_ZEROES

    def saved(self) -> int:
        """The pages that KSM saves on the whole machine by now."""
        return self.ksm.get("pages_sharing", 0) + self.ksm.get("ksm_zero_pages", 0)


def number_in(name: str) -> int | None:
    """A knob or counter, None where this kernel has none of the name."""
    try:
        return int((KSM / name).read_text(encoding="ascii"))
    except (OSError, ValueError):
        return None


def has_run() -> bool:
    """Tells whether KSM runs, or ran since the machine was started."""
    return number_in("run") == 1 or bool(number_in("full_scans"))


def advisor() -> str:
    """Which advisor is chosen."""
    try:
        found = CHOSEN.search((KSM / "advisor_mode").read_text(encoding="ascii"))
    except OSError:
        return ""
    return found[1] if found else ""


def kernel_of_machine(nodes: list[int]) -> Kernel:
    """What this machine runs."""
    told = {name: number_in(name) for name in KNOBS}
    known = {name: value for name, value in told.items() if value is not None}
    return Kernel(os.uname().release, nodes, known, advisor())
