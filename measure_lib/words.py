"""Sentences about a report that text and HTML have in common."""

import collections
import os

from . import advice
from .called import DOCUMENT, MEASURE
from .census import Heavy
from .figures import CUT, INTERRUPTED, SAMPLE, Figure
from .report import Checked, Report
from .savings import Saving
from .units import MEGABYTE, PAGE, as_megabytes, as_time, megabytes, one_decimal, percent

# growth below this part of a process's pages is not worth a word
GROWTH = 0.01
# what is less, in megabytes, would be told as 0.0
LEAST = 0.05
MATRIX = ("A cell is what two processes save by merging with each other, beyond what each saves alone; "
          "the diagonal is what each saves alone.")
STATES = {None: "no KSM in this kernel", 0: "KSM is off", 1: "KSM runs", 2: "KSM is off"}
# so many processes that ended are named
MOST_NAMED = 4
# a collision is worth a word where its chance is one in so many, or more
RARE = 1e-6


def system(report: Report) -> str:
    """The machine, in short."""
    nodes = len(report.kernel.nodes)
    return f"Linux {report.kernel.release}, {nodes} node{'s' * (nodes > 1)}, {STATES[report.kernel.ksm.get('run')]}"


def setting(told: Saving) -> str:
    """A setting by the kernel's names."""
    of = told.setting
    return (f"max_page_sharing {of.max_page_sharing:,}, use_zero_pages {of.use_zero_pages}, "
            f"merge_across_nodes {of.merge_across_nodes}")


def net(told: Saving) -> str:
    """What a setting saves after its cost, in megabytes."""
    return one_decimal(megabytes(told.saved) - told.cost / MEGABYTE)


def between(of: Figure) -> str:
    """The bounds of a figure."""
    return f"between {as_megabytes(of.low)} and {as_megabytes(of.high)} MB"


def first_answer(report: Report) -> str:
    """The answer with the settings of this machine."""
    of = report.answer()
    marked = " that are marked for it" if report.only_marked else ""
    whole = f"{as_megabytes(report.pages)} MB{marked}"
    part = f"{percent(of.told.saved, report.pages):.1f}%"
    known = "" if report.figures.is_exact else f", {between(of)}"
    if megabytes(report.already) >= LEAST:
        return (f"KSM already saves {as_megabytes(report.already)} of {whole}. With the settings of this machine "
                f"({setting(of.told)}) it comes to {as_megabytes(of.told.saved)} MB ({part}{known}): "
                f"{as_megabytes(max(of.told.saved - report.already, 0))} MB in addition.")
    return (f"Merging would save {as_megabytes(of.told.saved)} of {whole} ({part}{known}), with the settings of this "
            f"machine ({setting(of.told)}).")


def answer(report: Report) -> list[str]:
    """The answer, first as the machine is set and then at its best."""
    of, best = report.answer(), report.recommended()
    told = of.told
    said = [f"{first_answer(report)} KSM's own books take {one_decimal(told.cost / MEGABYTE)} MB of that at most, "
            f"which leaves {net(told)} MB."]
    if best is not of:
        known = "" if report.figures.is_exact else f" ({between(best)})"
        said.append(f"The best setting ({setting(best.told)}) saves {as_megabytes(best.told.saved)} MB{known}, "
                    f"{percent(best.told.saved, report.pages):.1f}%.")
    else:
        said.append("No other setting of those below saves much more.")
    return said


def left_out(report: Report) -> list[tuple[str, int, str]]:
    """What is not counted: what it is, how many pages, and why."""
    of, changed = report.left_out, report.total("changed") + report.total("gone")
    rows = [("pages of files", of.of_files, "the page cache holds them once already"),
            ("shared memory", of.shared, "KSM never takes it (a guest's memory with share=on is of this kind)"),
            ("huge TLB pages", of.huge_tlb, "KSM never takes them"),
            ("areas that KSM refuses", of.refused, "of devices, or not to be grown"),
            ("pinned", report.total("pinned"), "a device or the kernel refers to it, so KSM does not merge it"),
            ("swapped out", of.swapped, "not in memory"),
            ("not marked for KSM", of.not_marked, "as --mergeable asks"),
            ("mapped again after a fork", report.census.mapped_again(), "one frame serves several processes already"),
            ("changed between two looks", changed, "the scan merges what stays as it is"),
            ("not to be read", report.total("unread"), "unmapped or poisoned meanwhile")]
    return [row for row in rows if megabytes(row[1]) >= LEAST]


def ended_or_grown(report: Report) -> list[str]:
    """The processes that were not the same from the beginning of the look to its end."""
    said = [f"Process {seen.process.pid} ({seen.process.name}) ended while it was read: it is left out."
            for seen in report.ended[:MOST_NAMED]]
    if more := len(report.ended) - MOST_NAMED:
        said += [f"{more:,} more ended while they were read: they are left out."] * (more > 0)
    said += [f"Process {seen.process.pid} ({seen.process.name}) grew by {as_megabytes(seen.grown)} MB while it was "
             "read: that is not counted."
             for _, seen in report.by_size() if seen.grown > max(GROWTH * seen.pages, MEGABYTE // PAGE)]
    return said


def pinned(report: Report) -> list[str]:
    """The processes that have memory pinned."""
    said = []
    for _, seen in report.by_size():
        by, of = " and ".join(seen.pinned.by), f"{seen.process.pid} ({seen.process.name})"
        unknown = max(seen.pinned.pages - seen.counts.pinned, 0)
        if seen.pinned.is_whole:
            said.append(f"Process {of} has a device passed through ({by}), for which all of its memory is pinned: "
                        "it is not counted.")
        elif unknown:
            said.append(f"Process {of} has {as_megabytes(unknown)} MB pinned{f' ({by})' if by else ''}, the kernel "
                        "does not tell which: KSM saves less by as much as that.")
    return said


def known(report: Report) -> list[str]:
    """How much was read, where it was not all."""
    figures = report.figures
    if figures.kind == SAMPLE:
        return [f"A sample: of all contents {100 * figures.taken:g}% were taken by chance, each with all of its "
                "pages. The bounds hold in 97 of 100 samples; what is told of processes and contents is an estimate "
                "too."]
    if figures.kind == CUT:
        return [f"Interrupted when {100 * figures.read:.0f}% was read, of which a sample was taken: all that is told "
                "is of what was read, and says nothing of the rest."]
    if figures.kind == INTERRUPTED:
        return [f"Interrupted when {100 * figures.read:.0f}% was read, in blocks by chance. The bounds are those of "
                "all ways to share that fit what was met; the tables below the settings are of what was read."]
    return []


def by_order(report: Report) -> list[str]:
    """What may not be saved since frames of a fork are more places than the limit has room for."""
    most = max(report.figures.settings, key=lambda of: of.told.by_order).told
    if megabytes(most.by_order) < LEAST:
        return []
    answer_ = report.answer().told
    here = as_megabytes(answer_.by_order)
    return [f"Of frames that several processes map since a fork each place counts for max_page_sharing. Where they "
            f"are more than it, what is freed depends on the order in which ksmd meets them: with the settings of "
            f"this machine {here} MB of what is told as saved may stay, with max_page_sharing "
            f"{most.setting.max_page_sharing:,} {as_megabytes(most.by_order)} MB."]


def warnings(report: Report) -> list[str]:
    """What of the processes is not as it was asked for."""
    said = known(report) + ended_or_grown(report) + pinned(report) + by_order(report)
    if report.refused:
        who = "1 more such process is" if report.refused == 1 else f"{report.refused:,} more such processes are"
        why = "even root may not read it here" if os.geteuid() == 0 else f"root may (sudo {MEASURE} ..)"
        said.append(f"{who} left out, which this user may not read; {why}.")
    if len(report.kernel.nodes) > 1 and "not told" in report.nodes_from:
        said.append(f"The nodes of pages are {report.nodes_from}.")
    return said


def not_told(report: Report) -> list[str]:
    """What can't be told of what is merged already, here or by this user."""
    merged, said = report.census.merged_pages or report.kernel.saved(), []
    if merged and not report.are_frames_told:
        why = (f"Frames are told to root alone (sudo {MEASURE} ..)" if os.geteuid() else
               "This kernel's /proc/kpageflags calls all anonymous pages merged")
        said.append(f"{why}. So pages that KSM merged are told from those of a fork by their numbers only, area by "
                    "area; where an area has both, which is which is a guess"
                    + (", and the frames behind them are as few as max_page_sharing allows." if os.geteuid() else "."))
    if merged and report.kernel.splits_zeroes():
        said.append("Zeroes that this kernel gave back when it split huge pages are as memory never written: they are "
                    "no longer counted.")
    if not report.are_zeroes_told:
        said.append("This kernel does not tell pages of zeroes that KSM took (Linux 6.6 does) from marked memory that "
                    f"was read and never written: all {as_megabytes(report.census.zeroed)} MB mapped so are taken for "
                    "the former, which is the most that it may be.")
    return said


def how_long(report: Report) -> list[str]:
    """How long ksmd takes as it is set here, and what decides which pages it looks at."""
    settle, ksm, said = report.seconds_to_settle(), report.kernel.ksm, []
    if settle is not None:
        said.append(f"As it is set here (pages_to_scan {ksm['pages_to_scan']:,}, sleep_millisecs "
                    f"{ksm['sleep_millisecs']:,}) ksmd takes about {as_time(settle)} for the two passes that merging "
                    "needs.")
    if ksm.get("smart_scan"):
        said.append("smart_scan is 1: a page that did not merge is skipped, in the end for up to eight passes of "
                    "nine. Memory that is as it is when ksmd begins merges all the same; what becomes equal later "
                    "merges up to nine passes later, or never.")
    if report.kernel.advisor == "scan-time":
        said.append(f"The advisor (scan-time) sets pages_to_scan by itself, so that a pass takes "
                    f"{ksm.get('advisor_target_scan_time', 0):,} s, with at most {ksm.get('advisor_max_cpu', 0)}% of "
                    "a processor: it decides when all is reached, not what is saved.")
    return said


def how_to(report: Report) -> list[str]:
    """What KSM saves on the whole machine, beside these processes."""
    merged = report.kernel.saved()
    if not merged:
        return []
    rest = max(merged - report.already, 0)
    return [f"KSM saves {as_megabytes(merged)} MB on the whole machine, {as_megabytes(rest)} MB of it beside these "
            "processes."]


def checked(report: Report) -> str:
    """What the proved book said to all pages, or to the excerpt."""
    of = report.checked
    if of.laid:
        more = f" {of.unfit} more settings want more frames than it has." * (of.unfit > 0)
        return (f"The proved book (ksmbook) merged all {of.pages:,} pages with each of {of.settings} settings, on "
                f"{of.frames:,} frames: its counters are those of the formulas.{more}")
    all_ = f"Not all pages were laid before the proved book: {of.why_not_all}. " if of.why_not_all else ""
    return all_ + checked_excerpt(of)


def checked_excerpt(of: Checked) -> str:
    """What the proved book said to the excerpt."""
    if of.why_not:
        return f"No excerpt was checked: {of.why_not}."
    large = f", and contents of up to {of.large:,} pages, where the limits 256 and 1,024 bind" if of.large else ""
    return (f"The proved book (ksmbook) merged an excerpt of {of.pages} pages with each of {of.settings} settings"
            f"{large}: its counters are those of the formulas.")


def collisions(report: Report) -> list[str]:
    """The chance that two contents have one digest, where it is worth a word."""
    contents = sum(report.census.together.values())
    chance = contents * contents / 2 ** 65
    return [f"That two of the {contents:,.0f} contents have one digest of 64 bits has a chance of {chance:.0e}; a "
            "page too many would be told as saved."] if chance >= RARE else []


def zeroes_of_huge_pages(report: Report) -> list[str]:
    """What becomes of zeroes in huge pages."""
    if not report.split:
        return []
    size = as_megabytes(report.split)
    if report.kernel.splits_zeroes():
        return [f"{size} MB are zeroes in huge pages. This kernel gives them back when ksmd splits the huge page, "
                "with each setting; no counter of KSM has them, so pages_sharing and ksm_zero_pages stay below what "
                "is saved."]
    return [f"{size} MB are zeroes in huge pages; they merge as other pages do once ksmd split the huge page."]


def notes(report: Report) -> list[str]:
    """What else is worth to be known, each a sentence or two."""
    said = not_told(report)
    if huge := report.total_huge():
        said.append(f"{as_megabytes(huge)} MB are huge pages; their parts of {PAGE:,} bytes are counted, since KSM "
                    "splits a huge page of which it merges a part.")
    said += zeroes_of_huge_pages(report)
    if report.effort.again is None:
        said.append("Pages that change all the time are not merged; --again SECONDS looks twice and leaves them out.")
    effort = report.effort
    return [*said, *how_long(report), *how_to(report), checked(report), *collisions(report),
            f"It took {as_time(effort.seconds)} ({effort.processor:.1f} s of {effort.workers} "
            f"processor{'s' * (effort.workers > 1)}), and {effort.digest_bytes:.1f} bytes of digests a page. "
            f"{DOCUMENT} says what may be wrong."]


def then_what(report: Report) -> list[str]:
    """What the commands do not say."""
    return [advice.speed(report), *advice.marking(report)]


def kind(heavy: Heavy) -> str:
    """What a content is. Of others than zeroes nothing is told."""
    return "zeroes" if heavy.is_zero else "not zeroes"


def holders(report: Report, heavy: Heavy) -> str:
    """Which processes have a content: the one with most of its pages, and how many more."""
    pages: collections.Counter[int] = collections.Counter()
    for (owner, _), times in heavy.owners.items():
        pages[owner] += times
    (most, _), *others = pages.most_common()
    process = report.seen[most].process
    return f"{process.pid} {process.name}" + (f" and {len(others):,} more" if others else "")
