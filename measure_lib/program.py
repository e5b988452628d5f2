"""The program: from the words of the command line to the report and the status."""

import argparse
import os
import sys
import time

from . import choosing, excerpt, series, text, whole
from .called import IS_CHECKOUT, KSMBOOK, NAME
from .html_page import as_html
from .json_report import as_json
from .kernel import kernel_of_machine
from .look import Look, checked
from .options import parsed
from .progress import Progress
from .report import Checked, Effort, Report, report_of
from .trouble import INTERRUPTED, MEASURED, NOT_WRITTEN, Trouble

LOWEST = 19


def say(sentence: str) -> None:
    """A line on standard error."""
    print(f"{NAME}: {sentence}", file=sys.stderr)


def give_way() -> None:
    """Has this program, and its workers, run only where a processor is idle."""
    try:
        os.nice(LOWEST)
        os.sched_setscheduler(0, os.SCHED_IDLE, os.sched_param(0))
    except OSError:
        pass


def processor_time() -> float:
    """The seconds of processors that this program and its ended workers took."""
    return sum(os.times()[:4])


def look_for(options: argparse.Namespace) -> tuple[Report, Look]:
    """Reads the memory, and reckons."""
    begun, processor = time.monotonic(), processor_time()
    chosen, refused = choosing.choose(options.choice)
    look = Look(chosen, options.mergeable, (options.sample or 100) / 100, options.workers, options.rate)
    progress = Progress(look.pages() * (2 if options.again else 1))
    try:
        if options.again:
            look.twice(options.again, progress)
        else:
            look.once(progress)
    finally:
        progress.clear()
    checked(look)
    effort = Effort(0, 0, look.workers, look.bytes_a_page(), options.again)
    report = report_of(look, kernel_of_machine(look.nodes), refused, effort, options.rows)
    effort.seconds, effort.processor = time.monotonic() - begun, processor_time() - processor
    return report, look


def check(report: Report, look: Look, options: argparse.Namespace) -> Checked:
    """Takes the excerpt, writes its script where asked, and has the proved book count it."""
    if options.no_check and not options.script:
        return Checked(why_not="--no-check was given")
    taken = excerpt.excerpt_of(look, report.census)
    if options.script:
        write(options.script, "".join(f"{line}\n" for line in excerpt.script_of(taken)))
        say(f"{KSMBOOK} {' '.join(taken.options())} < {options.script}")
    if options.no_check:
        return Checked(why_not="--no-check was given")
    excerpt.PROGRAM = options.program or excerpt.PROGRAM
    if options.book:
        return check_all(report, look, taken, options)
    if not excerpt.is_built():
        return Checked(why_not="ksmbook is not built here (./ksmbook --nodes 1 --frames 1 </dev/null "
                               "proves and builds it)" if IS_CHECKOUT else "there is no ksmbook beside it")
    return excerpt.check(taken)


def check_all(report: Report, look: Look, taken: excerpt.Excerpt, options: argparse.Namespace) -> Checked:
    """Has the proved book merge all pages; where it has no room for them, the excerpt."""
    program = options.program or excerpt.built([*excerpt.HOST_PROGRAMS, *excerpt.PROGRAMS])
    try:
        if not program:
            raise whole.NoRoom("there is no proved book here (release/host makes one of a host's size)")
        if look.is_interrupted:
            raise whole.NoRoom("the reading was interrupted")
        return whole.check(look, report.census, program, say)
    except KeyboardInterrupt:
        why = "it was interrupted"
    except whole.NoRoom as no_room:
        why = str(no_room)
    say(f"not all pages are laid: {why}")
    checked = excerpt.check(taken) if excerpt.is_built() else Checked(why_not="ksmbook is not built here")
    checked.why_not_all = why
    return checked


def write(path: str, what: str) -> None:
    """Writes a file."""
    try:
        with open(path, "w", encoding="utf-8") as file:
            file.write(what)
    except OSError as error:
        raise Trouble(f"{path} can't be written: {error.strerror}", NOT_WRITTEN) from None


def can_be_written(path: str | None) -> None:
    """Refuses a file that can't be written before memory is read for a minute."""
    folder = os.path.dirname(os.path.abspath(path)) if path else None
    if folder and (os.path.isdir(path) or not os.access(folder, os.W_OK)):
        raise Trouble(f"{path} can't be written: there is no such folder, it is a folder, or it is not yours",
                      NOT_WRITTEN)


def measure(options: argparse.Namespace) -> Report:
    """Measures, and tells. An interruption ends a series, and what was read then is not told."""
    report, look = look_for(options)
    if options.every and look.is_interrupted:
        raise KeyboardInterrupt
    report.checked = check(report, look, options)
    look.close()
    if options.log:
        series.add(options.log, report)
    if options.html:
        write(options.html, as_html(report, series.read(options.log) if options.log else []))
    if options.every and not options.json:
        print(series.line(report), flush=True)
    else:
        print(as_json(report) if options.json else text.as_text(report), end="\n" if options.json else "", flush=True)
    return report


def measure_on(options: argparse.Namespace) -> None:
    """Measures once, or again and again until it is interrupted. Once the first time went well a process that ended
    stops nobody."""
    begun = time.monotonic()
    measure(options)
    while options.every:
        begun += options.every
        time.sleep(max(begun - time.monotonic(), 0))
        try:
            measure(options)
        except Trouble as trouble:
            if trouble.status == NOT_WRITTEN:
                raise
            say(str(trouble))


def run(words: list[str]) -> int:
    """The whole program; the status."""
    options = None
    try:
        options = parsed(words)
        for path in options.html, options.script, options.log:
            can_be_written(path)
        if not options.hurry:
            give_way()
        measure_on(options)
        return MEASURED
    except Trouble as trouble:
        say(str(trouble))
        return trouble.status
    except KeyboardInterrupt:
        if options and options.every:
            return MEASURED
        say("interrupted; nothing was changed")
        return INTERRUPTED
    except BrokenPipeError:
        os.dup2(os.open(os.devnull, os.O_WRONLY), sys.stdout.fileno())
        return NOT_WRITTEN
    except OSError as error:
        say(f"{error.filename or 'standard output'}: {error.strerror or error}")
        return NOT_WRITTEN
