"""What the kernel tells of KSM in one process: /proc/PID/ksm_stat (Linux 6.1), or ksm_merging_pages before it."""

import dataclasses
import re

from .processes import text_of
from .trouble import Ended

STAT = re.compile(r"(ksm_\w+):? (\d+)$", re.MULTILINE)


@dataclasses.dataclass(frozen=True)
class Told:
    """The pages of a process that KSM merged, and those that it mapped from the page of zeroes; None where this
    kernel does not tell (zeroes since Linux 6.6), or this user may not know."""
    merged: int | None = None
    zeroed: int | None = None


def told_of(folder: int) -> Told:
    """What is told of the process of a folder."""
    try:
        found = {name: int(number) for name, number in STAT.findall(text_of(folder, "ksm_stat"))}
    except (Ended, OSError):
        found = {}
    if "ksm_merging_pages" not in found:
        try:
            found["ksm_merging_pages"] = int(text_of(folder, "ksm_merging_pages"))
        except (Ended, OSError, ValueError):
            pass
    return Told(found.get("ksm_merging_pages"), found.get("ksm_zero_pages"))
