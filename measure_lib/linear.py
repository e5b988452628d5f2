"""The least and the greatest value of a sum over numbers from 0 up that some sums of theirs keep within bounds: a
linear program, by the simplex method."""

from collections.abc import Sequence

TINY = 1e-9
MOST_STEPS = 2000
Rows = list[tuple[Sequence[float], float, float]]


def pivot(table: list[list[float]], basis: list[int], row: int, column: int) -> None:
    """The variable of a column comes into the basis, in the place of a row's."""
    factor = table[row][column]
    table[row] = [value / factor for value in table[row]]
    for other, values in enumerate(table):
        if other != row and abs(values[column]) > 0:
            by = values[column]
            table[other] = [value - by * mine for value, mine in zip(values, table[row])]
    basis[row] = column


def leaving(table: list[list[float]], column: int) -> int | None:
    """The row that bounds the variable of a column most; None where none does."""
    rows = [(values[-1] / values[column], row) for row, values in enumerate(table[:-1]) if values[column] > TINY]
    return min(rows)[1] if rows else None


def descend(table: list[list[float]], basis: list[int], allowed: int) -> None:
    """Makes the sum of the last row as small as it may be, with the variables below a number."""
    for step in range(MOST_STEPS):
        costs = table[-1][:allowed]
        least = min(costs)
        if least > -TINY:
            return
        # the steepest column at first, later the first one, which never goes in a circle
        column = costs.index(least) if step < MOST_STEPS // 2 else next(
            at for at, cost in enumerate(costs) if cost < -TINY)
        row = leaving(table, column)
        if row is None:
            return
        pivot(table, basis, row, column)


def begun(rows: Rows, count: int) -> tuple[list[list[float]], list[int]]:
    """The table of the rows, each with a variable for what is left to its upper bound, one for what is above its
    lower bound, and one that has to become 0."""
    width = count + 2 * len(rows)
    table, basis, limits = [], [], []
    for number, (values, low, high) in enumerate(rows):
        for sign, bound, at in (1, high, count + 2 * number), (-1, -low, count + 2 * number + 1):
            line = [sign * value for value in values] + [0.0] * (width - count)
            line[at] = 1.0
            limits.append((line, bound))
    artificial = [at for at, (_, bound) in enumerate(limits) if bound < 0]
    for at, (line, bound) in enumerate(limits):
        flip = -1.0 if bound < 0 else 1.0
        own = [float(at == other) for other in artificial]
        table.append([flip * value for value in line] + own + [flip * bound])
        basis.append(width + artificial.index(at) if at in artificial else count + at)
    return table, basis


def least(costs: Sequence[float], rows: Rows) -> float | None:
    """The least value that the sum of costs may have where each row's sum is within its bounds; None where nothing
    is."""
    count, width = len(costs), len(costs) + 2 * len(rows)
    table, basis = begun(rows, count)
    total = len(table[0])
    first = [0.0] * width + [1.0] * (total - 1 - width) + [0.0]
    for line, of in zip(table, basis):
        if of >= width:
            first = [value - mine for value, mine in zip(first, line)]
    table.append(first)
    descend(table, basis, width)
    if -table[-1][-1] > 1e-6:
        return None
    for row, of in enumerate(basis):
        if of >= width:
            column = max(range(width), key=lambda at, line=table[row]: abs(line[at]))
            if abs(table[row][column]) > TINY:
                pivot(table, basis, row, column)
    last = [*costs, *[0.0] * (total - 1 - count), 0.0]
    for line, of in zip(table, basis):
        if last[of]:
            by = last[of]
            last = [value - by * mine for value, mine in zip(last, line)]
    table[-1] = last
    descend(table, basis, width)
    return -table[-1][-1]
