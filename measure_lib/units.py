"""Pages, megabytes and parts of 100, and how they are written."""

import mmap

PAGE = mmap.PAGESIZE
MEGABYTE = 1 << 20


def megabytes(pages: float) -> float:
    """So many pages in megabytes of 1,048,576 bytes."""
    return pages * PAGE / MEGABYTE


def percent(part: float, whole: float) -> float:
    """A part of a whole, in parts of 100."""
    return 100 * part / whole if whole else 0.0


def one_decimal(number: float) -> str:
    """A number with one decimal, such as `1,234.5`; never a zero with a sign."""
    return f"{round(number, 1) + 0.0:,.1f}"


def as_megabytes(pages: float) -> str:
    """Pages as megabytes with one decimal."""
    return one_decimal(megabytes(pages))


def as_time(seconds: float) -> str:
    """A time as people say it: `8 s`, `3 min 20 s`, `2 h 5 min`."""
    whole = round(seconds)
    if whole < 60:
        return f"{max(whole, 1)} s"
    if whole < 3600:
        return f"{whole // 60} min {whole % 60} s"
    return f"{whole // 3600} h {whole % 3600 // 60} min"
