"""Networks of the kinds that a survey office plans, in growing sizes, as two tables.

    python3 tools/plan_networks.py KIND SIZE SEED FACTOR FOLDER [STATIONS]     writes points.csv and candidates.csv

KIND is `level` (SIZE new benchmarks), `trilat` (SIZE new stations with distances and directions), `gnss` (SIZE new
points with vectors between what is near) or `mixed` (vectors, distances, levels and directions). Each limit is FACTOR
times what the plan of all candidates reaches, rounded up to 0.1 mm. With STATIONS the folder gets stations.csv too, in
which each point costs STATIONS times what a candidate does on average. The same words give the same tables.
"""
import math
import os
import random
import sys

import adjustment

POINTS_HEADER = ("name", "x", "y", "z", "plane", "height")
CANDIDATES_HEADER = ("name", "kind", "from", "to", "to2", "sd", "sdh", "price")
STATIONS_HEADER = ("name", "price")


def metres(millimetres):
    return "%s%d.%03d" % ("-" if millimetres < 0 else "", abs(millimetres) // 1000, abs(millimetres) % 1000)


def nearest(place, places, count):
    """The `count` places nearest to one, which is told by its name, without itself; each is a name, x and y."""
    others = [other for other in places if other[0] != place[0]]
    return sorted(others, key=lambda other: math.hypot(other[1] - place[1], other[2] - place[2]))[:count]


def new_pairs(new, places, count):
    """Each new place with each of its nearest, but no pair twice."""
    seen = set()
    for place in new:
        for other in nearest(place, places, count):
            key = frozenset((place[0], other[0]))
            if key not in seen:
                seen.add(key)
                yield place, other


def random_height(rng):
    return metres(100000 + rng.randrange(50000))


def level_network(size, rng):
    """Levels between each height and its four nearest; three heights are fixed. A level's error grows with the root of
    its length in km, its price with the length."""
    side = 1000 * math.ceil(math.sqrt(size + 3))
    names = ["B%d" % k for k in range(1, 4)] + ["H%d" % k for k in range(1, size + 1)]
    places = [(name, rng.uniform(0, side), rng.uniform(0, side)) for name in names]
    points = []
    for name, _x, _y in places:
        height = random_height(rng)
        points.append((name, "", "", height, "", "fixed" if name[0] == "B" else "%.1f" % rng.choice((2.0, 2.5, 3.0))))
    numbers = {name: k for k, name in enumerate(names)}
    edges = sorted({tuple(sorted((numbers[p[0]], numbers[q[0]]))) for p in places for q in nearest(p, places, 4)})
    candidates = []
    for number, (i, j) in enumerate(edges, 1):
        km = max(0.2, math.hypot(places[i][1] - places[j][1], places[i][2] - places[j][2]) / 1000)
        deviation = max(0.10, round(math.sqrt(km), 2))
        candidates.append(("l%d" % number, "level", names[i], names[j], "", "%.2f" % deviation, "", str(int(60 * km + 20))))
    return points, candidates


def plane_places(size, rng, step):
    """Four fixed places at the corners of a square, and new ones near the crossings of a grid in it, in mm."""
    side, columns = step * math.ceil(math.sqrt(size + 4)), math.ceil(math.sqrt(size))
    corners = [("F1", 0, 0), ("F2", side, 0), ("F3", 0, side), ("F4", side, side)]
    new = []
    for k in range(size):
        x = (k % columns + 0.5) * side / columns + rng.uniform(-0.2, 0.2) * step
        y = (k // columns + 0.5) * side / columns + rng.uniform(-0.2, 0.2) * step
        new.append(("N%d" % (k + 1), x, y))
    return [[(name, int(1000 * x), int(1000 * y)) for name, x, y in part] for part in (corners, new)]


def trilat_network(size, rng):
    """Distances from each new station to its four nearest places, and directions from a third of the stations."""
    fixed, new = plane_places(size, rng, 600)
    points = [(name, metres(x), metres(y), "", "fixed", "") for name, x, y in fixed]
    points += [(name, metres(x), metres(y), "", "%.1f" % rng.choice((3.0, 4.0, 5.0)), "") for name, x, y in new]
    candidates = []
    for place, other in new_pairs(new, fixed + new, 4):
        deviation, price = "%.2f" % rng.choice((2.0, 3.0)), str(rng.randrange(40, 70))
        candidates.append(("d%d" % (len(candidates) + 1), "distance", place[0], other[0], "", deviation, "", price))
    distances = len(candidates)
    for place in new[:max(2, size // 3)]:
        for other in nearest(place, fixed + new, 3):
            deviation, price = "%.2f" % rng.choice((5.0, 8.0, 10.0)), str(rng.randrange(20, 40))
            number = len(candidates) - distances + 1
            candidates.append(("r%d" % number, "direction", place[0], other[0], "", deviation, "", price))
    return points, candidates


def gnss_places(size, rng):
    fixed, new = plane_places(size, rng, 3000)
    points = [(name, metres(x), metres(y), random_height(rng), "fixed", "fixed") for name, x, y in fixed]
    for name, x, y in new:
        height = random_height(rng)
        limits = "%.1f" % rng.choice((6.0, 7.0, 8.0)), "%.1f" % rng.choice((10.0, 12.0, 14.0))
        points.append((name, metres(x), metres(y), height, *limits))
    candidates = []
    for place, other in new_pairs(new, fixed + new, 4):
        km = math.hypot(other[1] - place[1], other[2] - place[2]) / 1e6
        deviation = round(5 + km, 2)
        words = "%.2f" % deviation, "%.2f" % (2 * deviation), str(int(80 + 10 * km + rng.randrange(40)))
        candidates.append(("v%d" % (len(candidates) + 1), "vector", other[0], place[0], "", *words))
    return points, candidates, new, fixed + new


def gnss_network(size, rng):
    """Vectors between each new point and its four nearest places."""
    return gnss_places(size, rng)[:2]


def mixed_network(size, rng):
    """The same with distances and levels to the two nearest places, and directions from two points."""
    points, candidates, new, places = gnss_places(size, rng)
    number = 0
    for place in new:
        for other in nearest(place, places, 2):
            number += 1
            ends = place[0], other[0], ""
            candidates.append(("d%d" % number, "distance", *ends, "4.00", "", str(rng.randrange(60, 120))))
            candidates.append(("l%d" % number, "level", *ends, "5.00", "", str(rng.randrange(50, 90))))
    for place in new[:2]:
        for other in nearest(place, places, 3):
            number += 1
            ends = place[0], other[0], ""
            candidates.append(("r%d" % number, "direction", *ends, "5.00", "", str(rng.randrange(30, 60))))
    return points, candidates


KINDS = {"level": level_network, "trilat": trilat_network, "gnss": gnss_network, "mixed": mixed_network}


def limit_text(reached, factor):
    """A limit in mm: `factor` times what is reached, rounded up to 0.1 mm."""
    return "%.1f" % (max(1, math.ceil(10 * reached * factor)) / 10)


def with_limits(points, candidates, factor):
    """The points, with each limit set by what the plan of all candidates reaches."""
    records = [dict(zip(POINTS_HEADER, point)) for point in points]
    observed = [dict(zip(CANDIDATES_HEADER, candidate)) for candidate in candidates]
    network = adjustment.Network(records, observed)
    rows = [row for candidate in observed for row in network.rows(candidate)]
    c = adjustment.covariance(rows, len(network.numbers))
    for record in records:
        name, numbers = record["name"], network.numbers
        if record["plane"] not in ("", "fixed"):
            record["plane"] = limit_text(adjustment.semi_major_axis(c, numbers[name, "x"], numbers[name, "y"]), factor)
        if record["height"] not in ("", "fixed"):
            record["height"] = limit_text(math.sqrt(c[numbers[name, "z"]][numbers[name, "z"]]), factor)
    return [tuple(record.values()) for record in records]


def tables(kind, size, seed, factor):
    """The records of the points and of the candidates."""
    points, candidates = KINDS[kind](size, random.Random("%s-%d-%d" % (kind, size, seed)))
    return with_limits(points, candidates, factor), candidates


def station_prices(points, candidates, share):
    """The records of the stations: each point, at `share` times what a candidate costs on average."""
    price = round(share * sum(int(candidate[-1]) for candidate in candidates) / len(candidates))
    return [(point[0], str(price)) for point in points]


def write_table(folder, name, header, records):
    with open(os.path.join(folder, name + ".csv"), "w", encoding="utf-8") as file:
        file.write("".join(",".join(record) + "\n" for record in [header] + records))


def write_tables(kind, size, seed, factor, folder, stations=None):
    """Writes the tables into a folder, that of the stations where their share is told, and answers how many candidates
    there are."""
    points, candidates = tables(kind, size, seed, factor)
    os.makedirs(folder, exist_ok=True)
    write_table(folder, "points", POINTS_HEADER, points)
    write_table(folder, "candidates", CANDIDATES_HEADER, candidates)
    if stations is not None:
        write_table(folder, "stations", STATIONS_HEADER, station_prices(points, candidates, stations))
    return len(candidates)


if __name__ == "__main__":
    if len(sys.argv) not in (6, 7) or sys.argv[1] not in KINDS:
        sys.exit(__doc__)
    told = float(sys.argv[6]) if len(sys.argv) == 7 else None
    write_tables(sys.argv[1], int(sys.argv[2]), int(sys.argv[3]), float(sys.argv[4]), sys.argv[5], told)
