"""The report as one HTML page that needs nothing else: no script, no font, no picture from elsewhere."""

import datetime
from html import escape
from pathlib import Path

from . import advice, words
from .figures import Figure
from .heat import heat_map
from .report import Report
from .savings import LIMITS
from .series import picture
from .units import MEGABYTE, as_megabytes, megabytes, one_decimal, percent

KNOBS = ["max_page_sharing", "use_zero_pages", "merge_across_nodes"]
STYLE = Path(__file__).with_name("page.css")


def cell(tag: str, kind: str, what: str) -> str:
    """A cell of a table."""
    return f'<{tag} class="{kind}">{what}</{tag}>' if kind else f"<{tag}>{what}</{tag}>"


def table(kind: str, columns: list[tuple[str, str]], rows: list[tuple[str, list[str]]]) -> str:
    """A table of columns, each with a kind and a title, and of rows, each with a kind and its cells. It scrolls by
    itself where the page is narrow."""
    head = "".join(cell("th", of, title) for of, title in columns)
    body = ""
    for name, cells in rows:
        inner = "".join(cell("td", of, what) for (of, _), what in zip(columns, cells))
        body += f'<tr class="{name}">{inner}</tr>'
    return f'<div class="wide"><table class="{kind}"><thead><tr>{head}</tr></thead><tbody>{body}</tbody></table></div>'


def bar(part: float) -> str:
    """A bar, in parts of 100 of its room."""
    return f'<div class="bar"><i style="width:{part:.2f}%"></i></div>'


def section(title: str, *parts: str) -> str:
    """A part of the page with its title."""
    return f"<section><h2>{title}</h2>{''.join(parts)}</section>"


def note(text: str) -> str:
    """Small words below."""
    return f'<p class="note">{text}</p>'


def card(number: str, what: str) -> str:
    """Megabytes that are to be seen first."""
    return f'<div class="card"><b>{number}<small> MB</small></b><span>{what}</span></div>'


def cards(report: Report) -> str:
    """The answer in three numbers, and as a bar of the whole memory."""
    of, count = report.answer(), len(report.by_size())
    told, already = of.told, min(report.already, of.told.saved)
    saved = f"saved, {percent(told.saved, report.pages):.1f}% of it"
    if has_already(report):
        saved += f"; {as_megabytes(already)} MB of it already"
    if not report.figures.is_exact:
        saved += f"; {words.between(of)}"
    read = f"{'read' if report.figures.is_exact else 'in all'}, of {count:,} process{'es' * (count > 1)}"
    left = f"left of it when KSM's own {one_decimal(told.cost / MEGABYTE)} MB are paid"
    return ('<div class="cards">' + card(as_megabytes(told.saved), saved)
            + card(as_megabytes(report.pages), read) + card(words.net(told), left) + "</div>" + whole(report))


def whole(report: Report) -> str:
    """All of the memory as a bar: what is saved already, what would be, and what stays."""
    told = report.answer().told
    already = min(report.already, told.saved) if has_already(report) else 0
    parts = [("already", "saved already", already), ("saved", "saved in addition" if already else "saved",
                                                    told.saved - already)]
    bars = "".join(f'<i class="{kind}" style="width:{percent(pages, report.pages):.2f}%"></i>'
                   for kind, _, pages in parts if pages)
    key = "".join(f'<i class="{kind}"></i>{what} {as_megabytes(pages)} MB' for kind, what, pages in
                  [*parts, ("stays", "stays", report.pages - told.saved)] if pages)
    return (f'<div class="whole" role="img" aria-label="{percent(told.saved, report.pages):.1f}% saved">{bars}</div>'
            f'<p class="key">{key}</p>')


def has_already(report: Report) -> bool:
    """Tells whether KSM saves anything among these processes by now."""
    return megabytes(report.already) >= words.LEAST


def columns_of_settings(report: Report) -> list[tuple[str, str]]:
    """The columns of the table of settings."""
    known = [] if report.figures.is_exact else [("spare", "from"), ("spare", "to")]
    more = [("", "in addition")] if has_already(report) and report.figures.is_exact else []
    return [*[("", knob.replace("_", "_<wbr>")) for knob in KNOBS], ("", "saved MB"), *known, ("", "%"), *more,
            ("bars", ""), ("", "cost MB"), ("", "net MB")]


def setting_row(report: Report, of: Figure, most: float) -> tuple[str, list[str]]:
    """A setting with its bar."""
    told, knobs = of.told, of.told.setting
    kinds = ["now"] * (of is report.answer()) + ["first"] * (knobs.max_page_sharing == LIMITS[0])
    known = [] if report.figures.is_exact else [as_megabytes(of.low), as_megabytes(of.high)]
    more = [as_megabytes(told.saved - report.already)] if has_already(report) and report.figures.is_exact else []
    return " ".join(kinds), [
        f"{knobs.max_page_sharing:,}", str(knobs.use_zero_pages), str(knobs.merge_across_nodes),
        as_megabytes(told.saved), *known, f"{percent(told.saved, report.pages):.1f}%", *more,
        bar(100 * told.saved / most), one_decimal(told.cost / MEGABYTE), words.net(told)]


def settings(report: Report) -> str:
    """The grid of settings."""
    most = max(of.told.saved for of in report.figures.settings) or 1
    said = "The row in bold is how this machine is set."
    if len(report.kernel.nodes) == 1:
        said += " It has one node, so merge_across_nodes 0 saves the same."
    said += " The cost is what the kernel keeps for it: 64 bytes for each page visited and each merged one."
    rows = [setting_row(report, of, most) for of in report.figures.settings]
    kind = "settings" + " wider" * (has_already(report) and report.figures.is_exact)
    told = table(kind, columns_of_settings(report), rows)
    return section("What each setting saves", told, note(said), nodes(report))


def nodes(report: Report) -> str:
    """What each node saves by itself."""
    told = ", ".join(f"node {node} {as_megabytes(pages)} MB" for node, pages in report.by_node.items())
    return note(f"With merge_across_nodes 0 each node saves by itself: {told}.") if told else ""


def then_what(report: Report) -> str:
    """The commands that switch the best setting on."""
    lines = [f"{escape(command)}" + (f'  <span># {escape(why)}</span>' if why else "")
             for command, why in advice.commands(report)]
    code = f'<pre>{"&#10;".join(lines)}</pre>' if lines else ""
    first = "As root, for the best setting:" if lines else "KSM is set to its best already."
    return section("Then what?", f"<p>{first}</p>", code,
                   f"<ul>{''.join(f'<li>{escape(said)}</li>' for said in words.then_what(report))}</ul>")


def over_time(entries: list[dict[str, object]]) -> str:
    """The picture of a series."""
    if len(entries) < 2:
        return ""
    return section("Over time", picture(entries), note(f"In megabytes, {len(entries):,} measurements."))


def processes(report: Report) -> str:
    """The processes with most memory."""
    merged = [("spare", "merged MB")] if has_already(report) else []
    columns = [("", "PID"), ("words", "name"), ("", "MB"), ("spare", "marked MB"), *merged, ("", "with a copy MB"),
               ("", "%"), ("bars spare", "")]
    rows = []
    for owner, seen in report.by_size()[:report.rows]:
        part = min(percent(report.census.repeated[owner], seen.pages), 100)
        rows.append(("", [str(seen.process.pid), escape(seen.process.name), as_megabytes(seen.pages),
                          as_megabytes(seen.space.marked), *[as_megabytes(seen.merged)] * len(merged),
                          as_megabytes(report.census.repeated[owner]), f"{part:.1f}%", bar(part)]))
    rest = len(report.by_size()) - report.rows
    more = note(f"And {rest:,} more.") if rest > 0 else ""
    return section("Whose memory it is", table("processes", columns, rows), more,
                   note("Marked is what programs marked for KSM already; with a copy, what another page reads the "
                        "same as, here or in another process."))


def matrix(report: Report) -> str:
    """Which processes share with which."""
    if len(report.shown) < 2:
        return ""
    labels = [f"{report.seen[owner].process.pid} {report.seen[owner].process.name}" for owner in report.shown]
    picture = heat_map(labels, report.census.matrix())
    return section("Which share with which", picture, note(f"In megabytes. {words.MATRIX}"))


def heaviest(report: Report) -> str:
    """The contents that most pages have."""
    contents = report.heaviest()
    columns = [("", ""), ("words", "content"), ("", "copies"), ("", "MB"), ("bars spare", ""), ("words", "in process")]
    rows = [("", [str(place), words.kind(heavy), f"{heavy.copies:,}", as_megabytes(heavy.copies),
                  bar(100 * heavy.copies / contents[0].copies), escape(words.holders(report, heavy))])
            for place, heavy in enumerate(contents, 1)]
    return section("The heaviest contents", table("heaviest", columns, rows)) if rows else ""


def left_out(report: Report) -> str:
    """What is not counted, and why."""
    columns = [("words", ""), ("", "MB"), ("words", "why")]
    rows = [("", [what, as_megabytes(pages), escape(why)]) for what, pages, why in words.left_out(report)]
    return section("What is not counted", table("left", columns, rows)) if rows else ""


def paragraphs(sentences: list[str], kind: str) -> str:
    """Sentences, each a paragraph."""
    return "".join(f'<p class="{kind}">{escape(sentence)}</p>' for sentence in sentences)


def as_html(report: Report, entries: list[dict[str, object]]) -> str:
    """The whole page. The entries are those of a series, oldest first."""
    now = datetime.datetime.now().strftime("%Y-%m-%d %H:%M")
    notes = "".join(f"<li>{escape(sentence)}</li>" for sentence in words.notes(report))
    return "\n".join([
        '<!DOCTYPE html>', '<html lang="en">', '<head>', '<meta charset="utf-8">',
        '<meta name="viewport" content="width=device-width, initial-scale=1">',
        "<title>What merging would save</title>",
        f"<style>{STYLE.read_text(encoding='utf-8')}</style>", "</head>", "<body>", "<main>",
        f"<header><h1>What merging would save</h1><p>{escape(words.system(report))}, {now}</p></header>",
        cards(report), paragraphs(words.answer(report), ""), paragraphs(words.warnings(report), "warning"),
        settings(report), over_time(entries), matrix(report), processes(report), heaviest(report), left_out(report),
        then_what(report),
        section("What else to know", f"<ul>{notes}</ul>"), "</main>", "</body>", "</html>", ""])
