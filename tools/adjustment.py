"""A network of two tables in floating point: its observation equations in mm and cc without any rounding, the covariance
matrix of a plan with unit variance 1, what it says of points and rows, and what a report says.

Source of the equations, the covariance matrix, ellipses and redundancy numbers: Ghilani and Wolf, Adjustment Computations.
"""
import csv
import math

CC_IN_RADIAN = 200 * 10**4 / math.pi


def table(path):
    """The records of a table, by the names of their columns, without spaces around."""
    with open(path, encoding="utf-8-sig", newline="") as file:
        records = [[field.strip(" ") for field in record] for record in csv.reader(file) if record != [""] and record]
    return [dict(zip(records[0], record)) for record in records[1:]]


class Network:
    """The points by their names, and the numbers of the unknowns."""

    def __init__(self, points, candidates):
        self.points = {point["name"]: point for point in points}
        self.numbers = {}
        for point in points:
            for part, field in (("x", "plane"), ("y", "plane"), ("z", "height")):
                if point[field] not in ("", "fixed"):
                    self.numbers[point["name"], part] = len(self.numbers)
        stations = {candidate["from"] for candidate in candidates if candidate["kind"] == "direction"}
        for name in self.points:
            if name in stations:
                self.numbers[name, "turn"] = len(self.numbers)

    def coordinate(self, name, part):
        """In mm."""
        return 1000 * float(self.points[name][part])

    def line(self, start, end):
        """The parts of a line in x and y, in mm."""
        return [self.coordinate(end, part) - self.coordinate(start, part) for part in "xy"]

    def distance(self, start, end):
        dx, dy = self.line(start, end)
        length = math.hypot(dx, dy)
        return {
            (start, "x"): -dx / length,
            (start, "y"): -dy / length,
            (end, "x"): dx / length,
            (end, "y"): dy / length,
        }

    def bearing(self, start, end):
        """The change of the bearing atan2(dy, dx) in cc by a mm of each coordinate."""
        dx, dy = self.line(start, end)
        square = dx * dx + dy * dy
        p, q = CC_IN_RADIAN * dy / square, CC_IN_RADIAN * dx / square
        return {(start, "x"): p, (start, "y"): -q, (end, "x"): -p, (end, "y"): q}

    def equations(self, candidate):
        """Each row of an observation with its standard deviation, in mm or cc."""
        start, end, deviation = candidate["from"], candidate["to"], float(candidate["sd"])
        kind = candidate["kind"]
        if kind == "distance":
            return [(self.distance(start, end), deviation)]
        if kind == "direction":
            return [({**self.bearing(start, end), (start, "turn"): -1.0}, deviation)]
        if kind == "angle":
            row = self.bearing(start, candidate["to2"])
            for unknown, coefficient in self.bearing(start, end).items():
                row[unknown] = row.get(unknown, 0.0) - coefficient
            return [(row, deviation)]
        parts = [("z", deviation)] if kind == "level" else [("x", deviation), ("y", deviation), ("z", float(candidate["sdh"]))]
        return [({(start, part): -1.0, (end, part): 1.0}, sd) for part, sd in parts]

    def rows(self, candidate):
        """Each row by the numbers of its unknowns, without those that are fixed, with its weight."""
        return [
            ({self.numbers[u]: c for u, c in row.items() if u in self.numbers}, 1 / deviation**2)
            for row, deviation in self.equations(candidate)
        ]


def covariance(rows, size):
    """The inverse of the normal matrix; an unknown that is in no row keeps 0. None where there is no inverse."""
    matrix = [[0.0] * size for _ in range(size)]
    for row, weight in rows:
        for i, a in row.items():
            for j, b in row.items():
                matrix[i][j] += weight * a * b
    used = [i for i in range(size) if matrix[i][i] > 0]
    scale = {i: 1 / math.sqrt(matrix[i][i]) for i in used}
    lower = []
    for k, i in enumerate(used):
        line = []
        for j in range(k + 1):
            rest = scale[i] * matrix[i][used[j]] * scale[used[j]]
            rest -= sum(line[t] * (lower[j][t] if j < k else line[t]) for t in range(j))
            if j < k:
                line.append(rest / lower[j][j])
            elif rest < 1e-11:
                return None
            else:
                line.append(math.sqrt(rest))
        lower.append(line)
    inverse = [[0.0] * size for _ in range(size)]
    for k, i in enumerate(used):
        column = solved(lower, k)
        for t, j in enumerate(used):
            inverse[j][i] = scale[j] * column[t] * scale[i]
    return inverse


def solved(lower, k):
    """Column k of the inverse of lower times its transpose."""
    size = len(lower)
    forward = [0.0] * size
    for i in range(size):
        start = 1.0 if i == k else 0.0
        forward[i] = (start - sum(lower[i][t] * forward[t] for t in range(i))) / lower[i][i]
    column = [0.0] * size
    for i in reversed(range(size)):
        column[i] = (forward[i] - sum(lower[t][i] * column[t] for t in range(i + 1, size))) / lower[i][i]
    return column


def semi_major_axis(c, x, y):
    """The root of the larger eigenvalue of the block of x and y."""
    middle, half = (c[x][x] + c[y][y]) / 2, (c[x][x] - c[y][y]) / 2
    return math.sqrt(middle + math.hypot(half, c[x][y]))


def redundancy_number(c, row, weight):
    return 1 - weight * sum(a * b * c[i][j] for i, a in row.items() for j, b in row.items())


def report_of(path):
    """The names that are taken, and the shown value and the limit of each that the report shows."""
    taken, shown = [], {}
    with open(path, encoding="utf-8", newline="") as file:
        for line in file:
            word, *fields = line.rstrip("\r\n").split(",")
            if word == "take":
                taken.append(fields[0])
            elif word in ("axis", "height", "redundancy"):
                shown[(word, *fields[:-2])] = (float(fields[-2]), float(fields[-1]))
    return taken, shown
