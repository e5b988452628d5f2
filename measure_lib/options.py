"""The words of the command line."""

import argparse
import re

from .called import DOCUMENT, MEASURE, NAME
from .choosing import Choice
from .report import MOST_ROWS

DESCRIPTION = f"""\
What would merging equal pages (KSM) save on this machine, and what does it save
already?

{NAME} reads the memory of running processes, counts how often each
page's content is there, and tells in megabytes what the kernel's KSM would
save with each of its settings, what that costs, and which processes share with
which. It changes nothing, stops nothing, and writes nothing of what it read.
Ctrl-C ends the reading, and tells what follows from what was read.
"""

EXAMPLES = [
    (f"sudo {MEASURE} --name qemu", "every virtual machine"),
    (f"{MEASURE} 4711 4712", "two of your own"),
    (f"sudo {MEASURE} --all --sample 5", "everything, estimated"),
    (f"sudo {MEASURE} --slice machine --html saved.html", "a page for a browser"),
]
WIDTH = max(len(call) for call, _ in EXAMPLES)
CALLS = "\n".join(f"  {call:{WIDTH}}  {what}" for call, what in EXAMPLES)
EPILOG = f"""\
examples:
{CALLS}

statuses:
  0  measured             3  the report could not be written
  1  nothing to measure,  4  the proved book counts otherwise
     or not allowed       130  interrupted before a twentieth was read
  2  wrong options

{DOCUMENT} says what is counted, and what may be wrong.
"""
TIME = re.compile(r"(\d+(?:\.\d+)?)([smhd]?)$")
SECONDS = {"": 1, "s": 1, "m": 60, "h": 3600, "d": 86400}


def positive(word: str) -> float:
    """A number above 0."""
    number = float(word)
    if not 0 < number < 1e6:
        raise ValueError
    return number


def percentage(word: str) -> float:
    """Parts of 100, above 0 and below 100."""
    number = float(word)
    if not 0.01 <= number < 100:
        raise ValueError
    return number


def interval(word: str) -> float:
    """A time such as 90, 90s, 10m or 1h, in seconds."""
    found = TIME.match(word)
    if not found or not 0 < float(found[1]) < 1e6:
        raise ValueError
    return float(found[1]) * SECONDS[found[2]]


def add_choice(made: argparse.ArgumentParser) -> None:
    """The options that choose processes."""
    choice = made.add_argument_group("which processes (one that fits any of these is read)")
    choice.add_argument("pids", metavar="PID", nargs="*", type=int, help="a process to read")
    for name, metavar, text in [
            ("name", "NAME", "with NAME in the name of its program, or of its virtual machine"),
            ("domain", "NAME", "the virtual machine that libvirt, or QEMU's -name, calls NAME"),
            ("cgroup", "PATH", "in the control group PATH or below it"),
            ("slice", "NAME", "in the slice NAME of systemd"),
            ("uid", "USER", "of a user, by number or name")]:
        choice.add_argument(f"--{name}", metavar=metavar, action="append", default=[], help=text)
    choice.add_argument("--all", action="store_true", help="each process that you may read")
    choice.add_argument("--mergeable", action="store_true",
                        help="only memory that programs marked for KSM already (QEMU marks its guests')")


def add_reading(made: argparse.ArgumentParser) -> None:
    """The options that say how memory is read."""
    reading = made.add_argument_group("how it is read")
    reading.add_argument("--again", metavar="SECONDS", type=positive,
                         help="look a second time so much later; pages that changed are not merged")
    reading.add_argument("--sample", metavar="PERCENT", type=percentage,
                         help="take so much of all contents, and tell bounds for each figure")
    reading.add_argument("--rate", metavar="MB/S", type=positive, help="read at most so many megabytes a second")
    reading.add_argument("--workers", metavar="N", type=int, help="read with so many processors (all)")
    reading.add_argument("--hurry", action="store_true",
                         help="read with the priority of any program, not only where a processor is idle")


def add_report(made: argparse.ArgumentParser) -> None:
    """The options that say what is told."""
    told = made.add_argument_group("what is told")
    told.add_argument("--rows", metavar="N", type=int, default=MOST_ROWS,
                      help=f"tell so many processes one by one ({MOST_ROWS})")
    told.add_argument("--json", action="store_true", help="print JSON instead of text")
    told.add_argument("--html", metavar="FILE", help="write a page that needs nothing else to FILE as well")
    told.add_argument("--every", metavar="TIME", type=interval,
                      help="measure again and again, so far apart (90s, 10m, 1h), until ctrl-C")
    told.add_argument("--log", metavar="FILE", help="add a line of JSON to FILE each time; --html draws them all")
    told.add_argument("--script", metavar="FILE", help="write the excerpt for the proved book to FILE")
    told.add_argument("--no-check", action="store_true", help="do not have the proved book count an excerpt")
    told.add_argument("--book", action="store_true",
                      help="have the proved book merge all pages with each setting, not an excerpt")
    told.add_argument("--program", metavar="FILE", help="the proved book's program (ksmbook, and with --book the "
                                                        "one of a host's size where it is there)")


def parser() -> argparse.ArgumentParser:
    """The options, and the text of --help."""
    made = argparse.ArgumentParser(
        prog=NAME, usage=f"{NAME} [options] PID .. | --name NAME | .. | --all", description=DESCRIPTION,
        epilog=EPILOG,
        formatter_class=lambda prog: argparse.RawDescriptionHelpFormatter(prog, max_help_position=22, width=80))
    add_choice(made)
    add_reading(made)
    add_report(made)
    return made


def choice_of(options: argparse.Namespace) -> Choice:
    """Which processes the options choose."""
    return Choice(options.pids, options.name, options.domain, options.cgroup, options.slice, options.uid, options.all)


def parsed(words: list[str]) -> argparse.Namespace:
    """The options that the words say. Ends the program with status 2 where they are wrong."""
    made = parser()
    options = made.parse_args(words)
    options.choice = choice_of(options)
    if options.choice.is_empty():
        made.error("which processes? Give their PIDs, --name NAME or --all; --help explains")
    if options.all and (options.pids or options.choice.by_others()):
        made.error("--all takes no PID and no other choice beside it")
    if options.again and options.sample:
        made.error("--sample takes no --again beside it")
    if options.book and (options.sample or options.no_check):
        made.error("--book takes no --sample and no --no-check beside it")
    if options.rows < 1 or (options.workers is not None and not 0 < options.workers <= 128):
        made.error("--rows and --workers want a number above 0, --workers one up to 128")
    return options
