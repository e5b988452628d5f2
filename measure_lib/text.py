"""The report for a terminal: at most 80 columns."""

import textwrap

from . import advice, words
from .figures import Figure
from .report import Report
from .units import MEGABYTE, as_megabytes, megabytes, one_decimal, percent

WIDTH = 80
# columns of a setting's bar, of a name and of a cell in the matrix
BAR, NAME, CELL = 7, 22, 7
LETTERS = "abcdefgh"


def wrapped(sentence: str) -> str:
    """A sentence in lines of the width."""
    return textwrap.fill(sentence, WIDTH)


def cut(name: str, width: int) -> str:
    """A name in so many columns, cut where it is longer."""
    return name if len(name) <= width else name[:width - 2] + ".."


def process(number: str, name: str, sizes: list[float]) -> str:
    """A row of the processes: its memory, what is marked, what has a copy somewhere, and what is merged already."""
    pages, marked, repeated, merged = sizes
    return (f"{number:>8}  {cut(name, 23):<24}{as_megabytes(pages):>11}{as_megabytes(marked):>10}"
            f"{as_megabytes(merged):>10}{as_megabytes(repeated):>10}{percent(repeated, pages):>5.0f}")


def processes(report: Report) -> list[str]:
    """A row for each process, those with most memory first."""
    lines = [f"{'PROCESS':<34}{'MB':>11}{'marked':>10}{'merged':>10}{'copied':>10}{'%':>5}"]
    rows = [(str(seen.process.pid), seen.process.name,
             [seen.pages, seen.space.marked, report.census.repeated[owner], seen.merged])
            for owner, seen in report.by_size()]
    lines += [process(*row) for row in rows[:report.rows]]
    more = len(rows) - report.rows
    for name, some in (f"and {more:,} more (--rows)", rows[report.rows:]), ("all", rows if rows[1:] else []):
        if some:
            lines.append(process("", name, [sum(column) for column in zip(*(sizes for _, _, sizes in some))]))
    return lines


def columns(report: Report, of: Figure, most: float) -> str:
    """What a row of the settings ends with: the bounds where there are some, what comes in addition to what is
    merged already, or else a bar."""
    told = of.told
    if not report.figures.is_exact:
        return f"{as_megabytes(of.low):>10}{as_megabytes(of.high):>10}{one_decimal(told.cost / MEGABYTE):>8}"
    cost = f"{one_decimal(told.cost / MEGABYTE):>8}{words.net(told):>10}"
    if megabytes(report.already) >= words.LEAST:
        return f"{cost}{as_megabytes(told.saved - report.already):>10}"
    return f"{cost}   {'#' * round(BAR * told.saved / most)}"


def setting(report: Report, of: Figure, most: float) -> str:
    """A row of the settings. A star is at the machine's own."""
    knobs, star = of.told.setting, "*" if of is report.answer() else " "
    row = f"{star}{knobs.max_page_sharing:>8,}{knobs.use_zero_pages:>11}{knobs.merge_across_nodes:>14}"
    saved = f"{as_megabytes(of.told.saved):>12}{percent(of.told.saved, report.pages):>6.1f}"
    return f"{row}{saved}{columns(report, of, most)}".rstrip()


def settings(report: Report) -> list[str]:
    """A row for each setting."""
    most = max(of.told.saved for of in report.figures.settings) or 1
    ends = [("cost", "MB", 8), ("net", "MB", 10)]
    if not report.figures.is_exact:
        ends = [("from", "MB", 10), ("to", "MB", 10), ("cost", "MB", 8)]
    elif megabytes(report.already) >= words.LEAST:
        ends.append(("in addi-", "tion MB", 10))
    upper, lower = ("".join(f"{end[line]:>{end[2]}}" for end in ends) for line in (0, 1))
    lines = [f"{'max_page_':>9}{'use_zero_':>11}{'merge_across_':>14}{'saved':>12}{'%':>6}{upper}",
             f"{'sharing':>9}{'pages':>11}{'nodes':>14}{'MB':>12}{'':>6}{lower}"]
    lines += [setting(report, of, most) for of in report.figures.settings]
    one = " On one node merge_across_nodes 0 saves the same." if len(report.kernel.nodes) == 1 else ""
    return [*lines, f"* as this machine is set.{one}"]


def by_node(report: Report) -> list[str]:
    """What each node saves by itself."""
    if not report.by_node:
        return []
    limit = report.answer().told.setting.max_page_sharing
    told = ", ".join(f"node {node} {as_megabytes(pages)} MB" for node, pages in report.by_node.items())
    return [wrapped(f"With merge_across_nodes 0 (max_page_sharing {limit:,}, use_zero_pages 0) each node saves by "
                    f"itself: {told}.")]


def cell(pages: int) -> str:
    """Megabytes in a cell of the matrix; gigabytes, and said so, where they are too many for it."""
    size = megabytes(pages)
    if size >= 99999:
        return f"{f'{size / 1024:,.0f} GB':>{CELL}}"
    return f"{size:>{CELL}.1f}" if size < 1000 else f"{size:>{CELL},.0f}"


def matrix(report: Report) -> list[str]:
    """What pairs of processes have in common."""
    heads = "".join(f"{letter:>{CELL}}" for letter, _ in zip(LETTERS, report.shown))
    lines = [f"{'IN COMMON, MB':<{NAME + 2}}{heads}"]
    for letter, owner, row in zip(LETTERS, report.shown, report.census.matrix()):
        of = report.seen[owner].process
        label = cut(f"{letter} {of.pid} {of.name}", NAME)
        lines.append(f"{label:<{NAME + 2}}" + "".join(cell(pages) for pages in row))
    return [*lines, wrapped(words.MATRIX)]


def heaviest(report: Report) -> list[str]:
    """The contents that most pages have."""
    lines = [f"{'HEAVIEST CONTENT':<18}{'copies':>11}{'MB':>10}{'%':>6}  in process"]
    for place, heavy in enumerate(report.heaviest(), 1):
        lines.append(f"{place:>4}  {words.kind(heavy):<12}{heavy.copies:>11,}"
                     f"{as_megabytes(heavy.copies):>10}{percent(heavy.copies, report.pages):>6.1f}"
                     f"  {cut(words.holders(report, heavy), 33)}")
    return lines


def left_out(report: Report) -> list[str]:
    """What is not counted, and why."""
    lines = [f"{'NOT COUNTED':<28}{'MB':>12}  why"]
    for what, pages, why in words.left_out(report):
        first, *more = textwrap.wrap(why, WIDTH - 42)
        lines.append(f"  {what:<26}{as_megabytes(pages):>12}  {first}")
        lines += [f"{'':42}{line}" for line in more]
    return lines


def then_what(report: Report) -> list[str]:
    """What to do then."""
    told = advice.commands(report)
    lines = ["THEN WHAT? As root, for the best setting:" if told else "THEN WHAT? KSM is set to its best already."]
    for command, why in told:
        room = WIDTH - len(command) - 6
        lines.append(f"  {command}" + (f"  # {why}" if why and len(why) <= room else ""))
        if why and len(why) > room:
            lines[-1:] = [f"  # {why}", f"  {command}"]
    return [*lines, *(wrapped(sentence) for sentence in words.then_what(report))]


def laid(report: Report) -> list[str]:
    """What the proved book counts of all pages, and below it what is counted here, setting by setting."""
    of = report.checked
    if not of.laid:
        return []
    lines = [f"THE PROVED BOOK, of {of.pages:,} pages",
             f"{'max_page_':>9}{'use_zero_':>11}{'merge_across_':>14}{'pages_':>12}{'pages_':>12}{'pages_':>11}"
             f"{'ksm_zero_':>11}",
             f"{'sharing':>9}{'pages':>11}{'nodes':>14}{'shared':>12}{'sharing':>12}{'unshared':>11}{'pages':>11}"]
    for row in of.laid:
        knobs = f"{row.max_page_sharing:>9,}{row.use_zero_pages:>11}{row.merge_across_nodes:>14}"
        for head, counters in (knobs, row.counted), (f"{'counted here':>34}", row.here):
            shared, sharing, unshared, zeroes = counters.values()
            lines.append(f"{head:<34}{shared:>12,}{sharing:>12,}{unshared:>11,}{zeroes:>11,}")
    return lines


def sections(report: Report) -> list[list[str]]:
    """The parts of the text; those without a line are left out."""
    return [[words.system(report)], [wrapped(sentence) for sentence in words.answer(report)],
            [wrapped(sentence) for sentence in words.warnings(report)], settings(report), by_node(report),
            processes(report),
            matrix(report) if len(report.shown) > 1 else [], heaviest(report) if report.census.heaviest else [],
            left_out(report) if words.left_out(report) else [], laid(report), then_what(report),
            [wrapped(sentence) for sentence in words.notes(report)]]


def as_text(report: Report) -> str:
    """The whole text."""
    return "\n\n".join("\n".join(part) for part in sections(report) if part) + "\n"
