"""The matrix of processes as a picture: an SVG of cells that are the darker the more two processes share."""

from html import escape

from .units import megabytes

CELL, HIGH, LABEL, LETTER = 62, 34, 210, 26
# letters that a label has room for
ROOM = 28


def shown(pages: int) -> str:
    """Megabytes in a cell."""
    size = megabytes(pages)
    return f"{size:,.1f}" if size < 100 else f"{size:,.0f}"


def cell(x: int, y: int, part: float, text: str, is_own: bool) -> str:
    """A cell: its colour by its part of the largest, and its number."""
    kind = "own" if is_own else "pair"
    dark = " dark" if part > 0.55 else ""
    return (f'<rect class="{kind}" x="{x + 1}" y="{y + 1}" width="{CELL - 2}" height="{HIGH - 2}" rx="4" '
            f'style="--part:{0.06 + 0.94 * part:.3f}"/>'
            f'<text class="number{dark}" x="{x + CELL / 2}" y="{y + HIGH / 2 + 4}">{text}</text>')


def heat_map(labels: list[str], matrix: list[list[int]]) -> str:
    """The picture: a row and a column for each process."""
    most = max((pages for cells in matrix for pages in cells), default=0) or 1
    width, height = LABEL + CELL * len(labels), LETTER + HIGH * len(labels)
    drawn = []
    for i, label in enumerate(labels):
        letter, y = "abcdefgh"[i], LETTER + i * HIGH
        cut = label if len(label) <= ROOM else label[:ROOM - 2] + ".."
        drawn.append(f'<text class="label" x="0" y="{y + HIGH / 2 + 4}">{letter}&#160; {escape(cut)}</text>')
        drawn.append(f'<text class="letter" x="{LABEL + i * CELL + CELL / 2}" y="{LETTER - 9}">{letter}</text>')
        drawn += [cell(LABEL + j * CELL, y, pages / most, shown(pages), i == j) for j, pages in enumerate(matrix[i])]
    return (f'<div class="wide"><svg class="heat" viewBox="0 0 {width} {height}" style="width:{width}px" role="img" '
            f'aria-label="Megabytes that pairs of processes have in common">{"".join(drawn)}</svg></div>')
