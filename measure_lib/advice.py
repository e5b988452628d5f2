"""What to do then: the commands that switch the best setting on, and how fast ksmd has to scan."""

import collections
import os
from pathlib import Path

from .kernel import number_in
from .report import Report, setting_of
from .units import as_time

KSM = "/sys/kernel/mm/ksm"
TEN_MINUTES = 600
PASSES = 2
# seconds of a processor that ksmd takes for a page, where this machine's own has not scanned enough to tell; as
# bench/measured --ksmd measured them (docs/MEASURE.md)
SECONDS_A_PAGE = 2.5e-6
# pages that ksmd has to have scanned, and seconds it has to have taken, for a figure of this machine
ENOUGH_PAGES, ENOUGH_SECONDS = 200_000, 0.2
# the part of the ten minutes that ksmd may be at work for
MOST_BUSY = 0.9


def ksmd_seconds() -> float | None:
    """The seconds of a processor that this machine's ksmd took so far. None where it is not to be seen."""
    for entry in os.listdir("/proc"):
        if entry.isdecimal():
            try:
                stat = Path(f"/proc/{entry}/stat").read_text(encoding="utf-8", errors="replace")
            except OSError:
                continue
            if "(ksmd)" in stat:
                user, system = stat.rpartition(")")[2].split()[11:13]
                return (int(user) + int(system)) / os.sysconf("SC_CLK_TCK")
    return None


def seconds_a_page() -> tuple[float, bool]:
    """The seconds that ksmd takes for a page, and whether they are measured on this machine."""
    pages, seconds = number_in("pages_scanned") or 0, ksmd_seconds() or 0.0
    if pages >= ENOUGH_PAGES and seconds >= ENOUGH_SECONDS:
        return seconds / pages, True
    return SECONDS_A_PAGE, False


def pages_to_scan(report: Report) -> int | None:
    """How many pages ksmd has to scan each time it wakes to go over all of them twice in ten minutes. None where it
    can't, or does not sleep for a known time."""
    visits, pause = PASSES * report.answer().told.places, report.kernel.ksm.get("sleep_millisecs", 20) / 1000
    busy = visits * seconds_a_page()[0]
    if busy > MOST_BUSY * TEN_MINUTES or not pause:
        return None
    return max(round(visits * pause / (TEN_MINUTES - busy) + 0.5), 1)


def speed(report: Report) -> str:
    """What going over all pages twice in ten minutes takes."""
    each, is_own = seconds_a_page()
    busy = PASSES * report.answer().told.places * each
    whose = "as ksmd took on this machine so far" if is_own else "as measured elsewhere (see the document)"
    told = f"{as_time(busy)} of a processor, {each * 1e6:.1f} millionths of a second a page, {whose}"
    if pages_to_scan(report) is None:
        return f"Going over the memory of these processes twice takes ksmd {told}: more than ten minutes have."
    return (f"Going over the memory of these processes twice in ten minutes takes ksmd {told}. It goes on at this pace; "
            "what else is marked comes on top.")


def knobs(report: Report) -> list[tuple[str, int, str]]:
    """The knobs to be written for the best setting, in order, with what each is for."""
    best, now, ksm = report.recommended().told.setting, setting_of(report.kernel), report.kernel.ksm
    said: list[tuple[str, int, str]] = []
    moved = [name for name in ("max_page_sharing", "merge_across_nodes")
             if getattr(best, name) != getattr(now, name)]
    if moved and ksm.get("pages_shared"):
        said.append(("run", 2, f"gives back all that is merged, before which {moved[0]} can't change"))
    said += [(name, getattr(best, name), "") for name in moved]
    if best.use_zero_pages != now.use_zero_pages:
        said.append(("use_zero_pages", best.use_zero_pages, "zeroes need no frame then"))
    pages = pages_to_scan(report) if report.kernel.advisor in ("", "none") else None
    if pages is not None and pages > ksm.get("pages_to_scan", 0):
        said.append(("pages_to_scan", pages, "all of it twice in ten minutes"))
    if ksm.get("run") != 1 or (said and said[0][0] == "run"):
        said.append(("run", 1, "ksmd begins"))
    return said


def commands(report: Report) -> list[tuple[str, str]]:
    """Commands for root, with what each is for."""
    said = [(f"echo {value} > {KSM}/{name}", why) for name, value, why in knobs(report)]
    if report.kernel.advisor == "scan-time":
        said.append((f"echo 300 > {KSM}/advisor_target_scan_time", "a pass in five minutes, two in ten"))
    return said


def unmarked(report: Report) -> "collections.Counter[str]":
    """Pages that are not marked for KSM yet, by what has to mark them: a unit, a virtual machine, or a program."""
    found: collections.Counter[str] = collections.Counter()
    for _, seen in report.alive():
        left, of = seen.space.pages - seen.space.marked, seen.process
        if left > 0:
            found["guest" if of.domain else "unit" if of.unit.endswith(".service") else "program"] += left
    return found


def marking(report: Report) -> list[str]:
    """How the memory is marked that is not yet, and how a guest stays out."""
    left, said = unmarked(report), []
    units = sorted({seen.process.unit for _, seen in report.alive() if seen.process.unit.endswith(".service")})
    if left["unit"]:
        said.append(f"A unit's memory is marked by MemoryKSM=yes in its [Service] (systemctl edit {units[0]}; "
                    "systemd 254, Linux 6.4), from its next start on.")
    if left["guest"]:
        said.append("QEMU marks its guests' memory with -machine mem-merge=on, the default; what QEMU has for itself "
                    "is not marked.")
    if left["program"]:
        said.append("A program is marked as a whole by prctl(PR_SET_MEMORY_MERGE, 1) in it or in what starts it "
                    "(Linux 6.4), or area by area by madvise(MADV_MERGEABLE).")
    if any(seen.process.domain for _, seen in report.alive()):
        said.append("A guest stays out with <memoryBacking><nosharepages/></memoryBacking> in its libvirt domain.")
    return said
