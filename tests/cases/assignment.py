"""A second assignment of robots to their first goals, written from docs/FORMATS.md alone.

It says what `assign` has to answer. Up to seven robots it tries all permutations; above that it
looks for pairs that can change, as long as the total falls.
"""

from itertools import permutations

from machine import Site, front, lines_of, refused_line, text_of, without_return
from reference import Bad

MOST = 10**12  # what a task costs that can't be reached


def totals(square, columns):
    return sum(square[row][column] for row, column in enumerate(columns))


def of_all(square):
    """The columns of the rows: the least total, and then the least list, of all permutations."""
    return min((totals(square, columns), columns) for columns in permutations(range(len(square))))[1]


def distances(square, columns):
    """From each row to each other how much more the other's total is where it takes the column of the first.

    Where some way round costs less than nothing, the rows of such a way.
    """
    size = len(square)
    best = [[square[to][columns[of]] - square[of][columns[of]] for to in range(size)] for of in range(size)]
    after = [[to for to in range(size)] for _ in range(size)]
    for by in range(size):
        for of in range(size):
            for to in range(size):
                if best[of][by] + best[by][to] < best[of][to]:
                    best[of][to] = best[of][by] + best[by][to]
                    after[of][to] = after[of][by]
        for row in range(size):
            if best[row][row] < 0:
                way = [row]
                while after[way[-1]][row] not in way:
                    way.append(after[way[-1]][row])
                return None, way[way.index(after[way[-1]][row]) :]
    return best, []


def improved(square):
    """The same by ways round that cost less than nothing, and then by those that cost nothing, row by row."""
    columns = list(range(len(square)))
    while True:
        best, way = distances(square, columns)
        if best is None:
            given = [columns[row] for row in way]
            for row, column in zip(way[1:] + way[:1], given):
                columns[row] = column
            continue
        change = next(filter(None, (sooner(square, columns, row) for row in range(len(square)))), None)
        if change is None:
            return tuple(columns)
        columns = change


def sooner(square, columns, row):
    """The columns with a lesser one for the row, where the rows before keep theirs and the total stays; None if there are none."""
    for column in range(columns[row]):
        holder = columns.index(column)
        if holder < row:
            continue
        # A way from the holder back to the row over rows behind it, along which nothing is lost.
        rest = [it for it in range(row, len(square)) if it != holder]
        gain = square[row][columns[row]] - square[row][column]
        best, came = {holder: 0}, {}
        for _ in rest:
            for of in list(best):
                for to in rest:
                    cost = best[of] + square[of][columns[to]] - square[of][columns[of]]
                    if of != row and cost < best.get(to, cost + 1):
                        best[to], came[to] = cost, of
        if best.get(row, gain + 1) <= gain:
            changed, at = list(columns), row
            while at != holder:
                changed[came[at]] = columns[at]
                at = came[at]
            changed[row] = column
            return changed
    return None


def assignment(square):
    """The columns of the rows, and the numbers of the rows and the columns."""
    columns = of_all(square) if len(square) <= 7 else improved(square)
    rows = distances(square, columns)[0][0]
    numbers = [0] * len(square)
    for row, column in enumerate(columns):
        numbers[column] = square[row][column] - rows[row]
    return columns, rows, numbers


def square_of(reader, site):
    """The square of the costs, and for each column that isn't idle the name of its goal."""
    legs = [reader.missions.get(robot, [])[:1] for robot in range(len(reader.starts))]
    tasks = [leg for first in legs for leg in first]
    columns, names = [], []
    for kind, goal in tasks:
        labels = site.labels([goal] if kind == "cell" else reader.areas[goal], ())
        columns.append([labels.get(start, MOST) for start in reader.starts])
        names.append(reader.of_kind(kind)[goal])
    columns += [[0] * len(reader.starts)] * (len(reader.starts) - len(tasks))
    return [list(row) for row in zip(*columns)], names


def assign(text):
    """The status and the output of `assign`."""
    if len(text) > 4_194_304:
        return 3, b"refused too big\n"
    begun = front(text)
    if len(begun) == 2:
        return begun
    reader, number, rest = begun
    for line in lines_of(rest):
        number += 1
        try:
            reader.line(without_return(line))
        except Bad as bad:
            return refused_line(number, str(bad))
    square, goals = square_of(reader, Site(reader))
    columns, rows, numbers = assignment(square)
    robots = reader.of_kind("robot")
    lines = [b"total %d" % totals(square, columns)]
    for robot, column in enumerate(columns):
        cost = square[robot][column]
        words = b"idle 0" if column >= len(goals) else goals[column] + b" " + (b"none" if cost == MOST else b"%d" % cost)
        lines.append(b"robot %s %s" % (robots[robot], words))
    lines += [b"row %s %d" % (name, number) for name, number in zip(robots, rows)]
    lines += [b"column %d %d" % numbered for numbered in enumerate(numbers)]
    return 0, text_of(lines)
