"""Measurements over time: a line of JSON for each in a file, a line for the terminal, and a picture of all."""

import datetime
import json
from html import escape

from .report import Report
from .trouble import NOT_WRITTEN, Trouble
from .units import megabytes, one_decimal

WIDTH, HIGH, LEFT, BELOW, ABOVE = 760, 220, 70, 24, 12
# a line of the picture: the name in the file, the class, and what is written beside it
LINES = [("memory_mb", "memory", "memory"), ("best_mb", "best", "best setting"), ("saved_mb", "saved", "would save"),
         ("already_mb", "already", "saved already")]


def entry(report: Report) -> dict[str, object]:
    """What is kept of a measurement."""
    of, best, ksm = report.answer(), report.best(), report.kernel.ksm
    return {"time": datetime.datetime.now().astimezone().isoformat(timespec="seconds"),
            "processes": len(report.alive()), "memory_mb": round(megabytes(report.pages), 2),
            "saved_mb": round(megabytes(of.told.saved), 2), "saved_from_mb": round(megabytes(of.low), 2),
            "saved_to_mb": round(megabytes(of.high), 2), "already_mb": round(megabytes(report.already), 2),
            "best_mb": round(megabytes(best.told.saved), 2),
            "best_max_page_sharing": best.told.setting.max_page_sharing,
            "best_use_zero_pages": best.told.setting.use_zero_pages,
            "best_merge_across_nodes": best.told.setting.merge_across_nodes, "run": ksm.get("run"),
            "pages_sharing": ksm.get("pages_sharing"), "ksm_zero_pages": ksm.get("ksm_zero_pages"),
            "full_scans": ksm.get("full_scans"), "kind": report.figures.kind}


def add(path: str, report: Report) -> None:
    """Adds a line to the file."""
    try:
        with open(path, "a", encoding="utf-8") as file:
            file.write(json.dumps(entry(report)) + "\n")
    except OSError as error:
        raise Trouble(f"{path} can't be written: {error.strerror}", NOT_WRITTEN) from None


def read(path: str) -> list[dict[str, object]]:
    """The lines of the file that are measurements."""
    found = []
    with open(path, encoding="utf-8", errors="replace") as file:
        for words in file:
            try:
                told = json.loads(words)
                datetime.datetime.fromisoformat(told["time"])
                found.append({**told, **{name: float(told[name]) for name, _, _ in LINES}})
            except (ValueError, KeyError, TypeError):
                continue
    return found


def line(report: Report) -> str:
    """A measurement in a line of the terminal."""
    told = entry(report)
    return (f"{told['time'][:19].replace('T', ' ')}  {one_decimal(told['memory_mb'])} MB, saved already "
            f"{one_decimal(told['already_mb'])}, would be {one_decimal(told['saved_mb'])}, best "
            f"{one_decimal(told['best_mb'])}")


def rounded_up(number: float) -> float:
    """A round number that is not below."""
    step = 1.0
    while step * 10 < number:
        step *= 10
    return next(step * times for times in (1, 2, 5, 10) if step * times >= number)


def picture(entries: list[dict[str, object]]) -> str:
    """The picture: a line for each of what is told, over time."""
    times = [datetime.datetime.fromisoformat(told["time"]).timestamp() for told in entries]
    most = rounded_up(max([1.0, *(told["memory_mb"] for told in entries)]))
    span = max(times[-1] - times[0], 1.0)

    def across(when: float) -> float:
        return LEFT + (WIDTH - LEFT - 10) * (when - times[0]) / span

    def down(size: float) -> float:
        return ABOVE + (HIGH - ABOVE - BELOW) * (1 - size / most)

    drawn = [f'<line class="grid" x1="{LEFT}" x2="{WIDTH - 10}" y1="{down(part * most):.1f}" '
             f'y2="{down(part * most):.1f}"/><text x="{LEFT - 8}" y="{down(part * most) + 4:.1f}" class="end">'
             f'{part * most:,.{int(most < 100)}f}</text>' for part in (0, 0.25, 0.5, 0.75, 1)]
    drawn += [f'<polyline class="{kind}" points="'
              + " ".join(f"{across(when):.1f},{down(told[name]):.1f}" for when, told in zip(times, entries)) + '"/>'
              for name, kind, _ in LINES]
    for when, place in (0, "begin"), (-1, "end"):
        drawn.append(f'<text x="{across(times[when]):.1f}" y="{HIGH - 6}" class="{place}">'
                     f'{escape(entries[when]["time"][:16].replace("T", " "))}</text>')
    key = "".join(f'<i class="{kind}"></i>{what}' for _, kind, what in LINES)
    return (f'<div class="wide"><svg class="series" viewBox="0 0 {WIDTH} {HIGH}" role="img" '
            f'aria-label="Megabytes over time">{"".join(drawn)}</svg></div><p class="key series">{key}</p>')
