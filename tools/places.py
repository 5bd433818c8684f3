"""Where the points of a network stand in a picture: east and north in metres, and a scheme where a table has no coordinates."""
import numpy as np

STEPS = 200
FAR = 1.5


def ends(candidate):
    """The station, the target, and the foresight of an angle."""
    names = [candidate["from"], candidate["to"]]
    return names + [candidate["to2"]] if candidate["kind"] == "angle" else names


def steps_between(names, candidates):
    """How many observations lie between each two points at least; those that nothing joins are farther than all others."""
    number = {name: place for place, name in enumerate(names)}
    beside = [set() for _ in names]
    for candidate in candidates:
        start, *others = (number[name] for name in ends(candidate))
        for other in others:
            beside[start].add(other)
            beside[other].add(start)
    steps = np.full((len(names), len(names)), -1.0)
    for start in range(len(names)):
        steps[start, start], ring, depth = 0, {start}, 0
        while ring:
            depth += 1
            ring = {far for near in ring for far in beside[near] if steps[start, far] < 0}
            steps[start, list(ring)] = depth
    steps[steps < 0] = FAR * (steps.max() + 1)
    return steps


def scheme(names, candidates):
    """Places whose distances are near the steps between them, 100 m each: classical scaling, then stress majorization."""
    size = len(names)
    wanted = 100 * steps_between(names, candidates)
    turns = 2 * np.pi * np.arange(size) / max(size, 1)
    places = np.column_stack((np.cos(turns), np.sin(turns)))
    if size > 2:
        means = (wanted**2).mean(axis=0)
        values, axes = np.linalg.eigh((means[:, None] + means[None] - means.mean() - wanted**2) / 2)
        places += axes[:, -2:] * np.sqrt(np.maximum(values[-2:], 0))
    for _ in range(STEPS):
        apart = np.linalg.norm(places[:, None] - places[None], axis=2)
        ratio = np.divide(wanted, apart, out=np.zeros_like(apart), where=apart > 1e-9)
        places = (ratio.sum(axis=1)[:, None] * places - ratio @ places) / max(size, 1)
    if size > 1:
        _, axes = np.linalg.eigh(places.T @ places)
        places = places @ axes[:, ::-1]
    return dict(zip(names, map(tuple, places)))


def places_of(points, candidates):
    """The place of each point that has coordinates or is in a candidate, and the names of those without coordinates."""
    known = {p["name"]: (float(p["y"]), float(p["x"])) for p in points if p["x"] and p["y"]}
    used = {name for candidate in candidates for name in ends(candidate)}
    lacking = [p["name"] for p in points if p["name"] not in known and (p["name"] in used or not candidates)]
    if not known:
        return scheme(lacking, candidates), set(lacking)
    if lacking:
        known.update(beneath(known, lacking))
    return known, set(lacking)


def beneath(known, lacking):
    """Places in a row beneath those that are known."""
    east, north = zip(*known.values())
    extent = max(max(east) - min(east), max(north) - min(north)) or 100
    step = extent / (len(lacking) + 1)
    return {name: (min(east) + step * (place + 1), min(north) - extent / 6) for place, name in enumerate(lacking)}
