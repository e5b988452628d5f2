"""The works that bench/speed and bench/cost count: what each writes, in how many rounds, and the goal beside plain Rust.

docs/SPEED.md says what the works are.
"""

import dataclasses
import os
import statistics
import subprocess
import typing

import measure
import workload


@dataclasses.dataclass(frozen=True)
class Work:
    """What writes a script, how many rounds of it are counted, and the least figure. Without rounds the whole run is counted. Where a
    work is named that this one is to cost no more than, the program is compared with itself."""
    writer: typing.Callable
    rounds: int
    goal: float
    pages: int = workload.PAGES
    options: typing.Sequence[str] = tuple(workload.OPTIONS)
    beside: typing.Optional[typing.Callable] = None

    def write(self, path, rounds):
        with open(path, "w", encoding="ascii") as file:
            workload.write(file, self.writer, self.pages, lambda script: script.rounds >= rounds)


WORKS = {
    "store_read": Work(workload.stores, 20_000, 0.85),
    "store_full": Work(workload.full_stores, 20_000, 0.85),
    "get_all": Work(workload.reads_of_all, 30, 0.85),
    "ticket": Work(workload.tickets, 40_000, 0.85),
    "empty": Work(workload.empty_lines, 100_000, 0.5),
    "lookups": Work(workload.lookups, 15_000, 0.7),
    "rmap": Work(workload.mappers, 200, 1.0),
    "audit": Work(workload.audits, 50, 0.8, options=tuple(workload.ALL_PASSES)),
    "stat": Work(workload.counting, 30, 0.8),
    "start": Work(workload.nothing, 0, 1 / 1.5),
    "waiting": Work(workload.waiting, 300, 0.6),
    "waiting_prunes": Work(workload.waiting_beside_prunes, 300, 0.6),
    "chain": Work(workload.long_chain, 300, 0.75, pages=1000),
    "scan_large": Work(workload.broken_scans, 300, 0.6),
    "one_broken": Work(workload.one_broken, 20, 0.75),
    "merge_64": Work(workload.merging, 80, 0.8, pages=64),
    "merge_1024": Work(workload.merging, 80, 0.8),
    "guests": Work(workload.guests, 10_000, 0.75),
    "scarce": Work(workload.scarce, 2_000, 0.8, pages=400, options=tuple(workload.SCARCE_OPTIONS)),
    "many_contents": Work(workload.many_contents, 80, 0.6),
    "come_and_go": Work(workload.come_and_go, 400, 0.7),
    "one_page_guests": Work(workload.one_page_guests, 10, 0.7, pages=1_000),
    "mergeable": Work(workload.mergeable_again, 500, 0.7, pages=1_000),
    "unmerge": Work(workload.unmerging, 40, 0.7, pages=900),
    "set_run": Work(workload.run_two, 40, 0.7, pages=900),
    "across": Work(workload.across_nodes, 200, 0.7),
    "zero_pages": Work(workload.zero_pages, 100, 0.7),
    "show": Work(workload.shows, 40_000, 0.7),
    "prune": Work(workload.prunes, 4_000, 0.7),
    "movedup": Work(workload.moves_of_dups, 4_000, 0.7),
    "move": Work(workload.moves, 10_000, 0.7),
    "register": Work(workload.registers, 10_000, 0.7),
    "mixed": Work(workload.mixed, 20_000, 0.7),
    "pages_collide": Work(workload.pages_that_collide, 5_000, 1 / 2, beside=workload.pages_at_random),
    "pages_in_a_slot": Work(workload.pages_in_a_slot, 5_000, 1 / 2, beside=workload.pages_at_random),
    "guests_downward": Work(workload.guests_downward, 325, 1 / 2.5, beside=workload.guests_upward),
    "contents_collide": Work(workload.contents_that_collide, 50, 1 / 2, beside=workload.contents_at_random),
    "contents_in_a_place": Work(workload.contents_in_a_place, 50, 1 / 2, beside=workload.contents_at_random),
}


# The C library picks its functions on memory by the processor; with these all processors count alike.
PLAIN_LIBRARY = {"GLIBC_TUNABLES": "glibc.cpu.hwcaps=-AVX2,-AVX512F,-AVX512VL,-AVX512BW,-EVEX,-ERMS,-FSRM,-BMI2"}


def counted(program, options, script):
    """The instructions that a run takes, or none where the program doesn't read the script to its end."""
    words = ["valgrind", "--tool=callgrind", "--callgrind-out-file=/dev/null", program, *options]
    with open(script, "rb") as lines:
        run = subprocess.run(words, stdin=lines, stdout=subprocess.DEVNULL, stderr=subprocess.PIPE, check=False,
                             env={**os.environ, **PLAIN_LIBRARY})
    if run.returncode:
        raise SystemExit(f"{program}: ended with status {run.returncode}")
    (told,) = [line for line in run.stderr.decode().splitlines() if "Collected" in line]
    return int(told.split()[-1])


class Measured:
    """A work with its scripts: one that lays its pages, and one with its rounds."""

    def __init__(self, work, scale, folder):
        self.work = work
        self.rounds = max(1, round(work.rounds * scale)) if work.rounds else 0
        self.laid, self.whole = (os.path.join(folder, name) for name in ("laid.ksm", "whole.ksm"))
        work.write(self.laid, 0)
        work.write(self.whole, self.rounds)

    def instructions(self, program, runs):
        """Those of a round, or of the whole run where there are none."""
        options = self.work.options
        whole = statistics.median(counted(program, options, self.whole) for _ in range(runs))
        if not self.rounds:
            return whole
        laid = statistics.median(counted(program, options, self.laid) for _ in range(runs))
        return (whole - laid) / self.rounds

    def seconds(self, programs, runs):
        """The time of a processor of each program, and whether all gave the same replies."""
        turns = [[measure.measured(program, self.work.options, self.whole) for program in programs] for _ in range(runs)]
        replies = {run.replies for turn in turns for run in turn}
        return [statistics.median(turn[i].seconds for turn in turns) for i in range(len(programs))], len(replies) == 1
