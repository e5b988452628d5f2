"""A real ksmd: `measure` tells what it will save, ksmd merges the same processes, and `measure` tells what it saves.

What is found goes to a function, a kind and a value at a time: for each mix `mix` NAME and `told` JSON, for each
setting `ksmd` JSON, and for some of them `after` JSON, what `measure` tells once ksmd has merged.
"""

import contextlib
import json
import os
import subprocess
import sys
import time
from collections.abc import Callable, Iterator

import holder
from mixes import HARD, MIXES, Mix

TOP = os.path.dirname(os.path.dirname(os.path.dirname(os.path.abspath(__file__))))
MEASURE = os.path.join(TOP, "measure") if os.path.exists(os.path.join(TOP, "measure")) else "/measure"
sys.path.insert(0, os.path.dirname(MEASURE))
from measure_lib.advice import ksmd_seconds  # pylint: disable=wrong-import-position
from measure_lib.savings import grid  # pylint: disable=wrong-import-position

KSM = "/sys/kernel/mm/ksm/"
COUNTERS = ["pages_shared", "pages_sharing", "ksm_zero_pages"]
# the bytes that are saved, less those of all reverse-map items
PROFIT = "general_profit"
# ksmd at its fastest
FAST = {"sleep_millisecs": 1, "pages_to_scan": 1000000, "smart_scan": 0}
# passes that the counters have to stay as they are, and the most seconds to wait for that
PASSES, MOST_SECONDS = 3, 600
# measured again once ksmd has merged: with these settings alone
AFTER = [(256, 0, 1), (256, 1, 1)]
Tell = Callable[[str, str], None]


def read(name: str) -> int | None:
    """A knob or counter, None where this kernel has none of the name."""
    try:
        with open(KSM + name, encoding="ascii") as file:
            return int(file.read())
    except (FileNotFoundError, ValueError):
        return None


def write(name: str, value: int) -> None:
    """Sets a knob that this kernel has."""
    if read(name) not in (None, value):
        with open(KSM + name, "w", encoding="ascii") as file:
            file.write(str(value))


def counters(*more: str) -> dict[str, int]:
    """The counters that this kernel has, and some more that need not settle."""
    return {name: value for name in [*COUNTERS, *more] if (value := read(name)) is not None}


def settled() -> dict[str, int]:
    """The counters once they have stayed the same for some passes of the scan."""
    end = time.monotonic() + MOST_SECONDS
    passes, seen = read("full_scans"), counters()
    while read("full_scans") < passes + PASSES:
        time.sleep(0.02)
        if counters() != seen:
            passes, seen = read("full_scans"), counters()
        if time.monotonic() > end:
            raise TimeoutError("ksmd does not settle")
    return counters(PROFIT)


def merged(setting: dict[str, int]) -> dict[str, int]:
    """What ksmd comes to with a setting. It stands still then."""
    for name, value in setting.items():
        write(name, value)
    write("run", 1)
    found = settled()
    write("run", 0)
    return found


def forget() -> None:
    """Has ksmd unmerge all."""
    write("run", 2)
    write("run", 0)


def marked() -> list[str]:
    """The processes that have memory marked for KSM, as far as the kernel tells (Linux 6.15)."""
    found = []
    for entry in filter(str.isdecimal, os.listdir("/proc")):
        with contextlib.suppress(OSError), open(f"/proc/{entry}/ksm_stat", encoding="ascii") as stat:
            if "ksm_mergeable: yes" in stat.read():
                found.append(entry)
    return found


@contextlib.contextmanager
def as_it_was() -> Iterator[None]:
    """All knobs are at the end what they were; nothing may be merged before, or marked for it."""
    if read("run") != 0 or read("pages_shared"):
        raise OSError("KSM runs on this machine, or has something merged")
    if others := marked():
        raise OSError(f"memory is marked for KSM already, of process {', '.join(others)}: it would be merged, too")
    before = {name: read(name) for name in (*FAST, "max_page_sharing", "use_zero_pages", "merge_across_nodes")}
    try:
        yield
    finally:
        forget()
        for name, value in before.items():
            if value is not None:
                write(name, value)


def told_by_measure(pids: list[int]) -> str:
    """What `measure` tells of these processes."""
    words = [sys.executable, "-S", MEASURE, "--mergeable", "--no-check", "--hurry", "--json", *map(str, pids)]
    return json.dumps(json.loads(subprocess.run(words, check=True, stdout=subprocess.PIPE).stdout))


def try_mix(tell: Tell, mix: Mix, settings: list[dict[str, int]], is_bound: bool) -> None:
    """Measures a mix, and merges the same processes; the same mix anew for each further setting."""
    children = holder.start_all(mix, is_bound)
    tell("mix", mix.name)
    tell("told", told_by_measure(list(children)))
    for setting in settings:
        children = children or holder.start_all(mix, is_bound)
        tell("ksmd", json.dumps({**setting, **merged(setting)}))
        if tuple(setting.values()) in AFTER:
            tell("after", told_by_measure(list(children)))
        forget()
        holder.end_all(children)
        children = {}


def try_pythons(tell: Tell, settings: list[dict[str, int]]) -> None:
    """Measures two idle Pythons that are marked whole, and merges them; two others for each further setting."""
    tell("mix", PYTHONS)
    for setting in settings:
        idle = [subprocess.Popen([sys.executable, "-S", holder.__file__], stdout=subprocess.PIPE) for _ in range(2)]
        for process in idle:
            process.stdout.readline()
        tell("told", told_by_measure([process.pid for process in idle]))
        tell("ksmd", json.dumps({**setting, **merged(setting)}))
        forget()
        for process in idle:
            process.kill()
            process.wait()


def cost(megabytes: int) -> Iterator[str]:
    """What a page takes ksmd of a processor on this machine: while pages are new, and later; with pages_to_scan as it
    is written, and with the advisor, where there is one."""
    pages = megabytes << 8
    mix = Mix("cost", [[holder.Page(1 + i // 2) for i in range(pages)]])
    children = holder.start_all(mix, is_bound=False)
    try:
        for name, value in FAST.items():
            write(name, value)
        write("pages_to_scan", 2000)
        write("run", 1)
        for what, passes in ("the first two passes", 2), ("two later passes", 2):
            yield spent(what, passes)
        if os.path.exists(KSM + "advisor_mode"):
            target = read("advisor_target_scan_time")
            choose_advisor("scan-time", 5)
            try:
                yield spent("with the advisor", 2)
            finally:
                choose_advisor("none", target)
    finally:
        write("run", 0)
        holder.end_all(children)


def choose_advisor(name: str, seconds: int) -> None:
    """Chooses what sets pages_to_scan, and the seconds that a pass is to take with the advisor."""
    with open(KSM + "advisor_mode", "w", encoding="ascii") as file:
        file.write(name)
    write("advisor_target_scan_time", seconds)


def spent(what: str, passes: int) -> str:
    """What so many passes take ksmd, in words."""
    begun = read("full_scans"), read("pages_scanned"), ksmd_seconds(), time.monotonic()
    while read("full_scans") < begun[0] + passes and time.monotonic() < begun[3] + 60:
        time.sleep(0.01)
    pages, seconds = read("pages_scanned") - begun[1], ksmd_seconds() - begun[2]
    each = seconds / max(pages, 1) * 1e6
    return f"{what}: {pages:,} pages, {seconds:.2f} s of a processor, {each:.2f} microseconds a page"


PYTHONS = "two idle Pythons"


def names(only: list[str]) -> list[str]:
    """The names of all mixes, or of those with one of some words in theirs."""
    return [name for name in [*(mix.name for mix in MIXES + HARD), PYTHONS]
            if not only or any(word in name for word in only)]


def try_all(tell: Tell, nodes: int, are_few: bool, only: list[str]) -> None:
    """Tries each mix, or those of some names: with each setting, or with few."""
    settings = [vars(setting) for setting in grid(nodes)]
    if are_few:
        settings = [of for of in settings if of["merge_across_nodes"] and of["max_page_sharing"] in (2, 256)]
    for name, value in FAST.items():
        write(name, value)
    wanted = names(only)
    for mix in MIXES + HARD:
        if mix.name in wanted:
            try_mix(tell, mix, settings, nodes > 1)
    if PYTHONS in wanted:
        try_pythons(tell, settings)
