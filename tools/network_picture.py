"""The picture of a plan: points, candidates, chosen observations, standard ellipses and heights with their limits."""
import math
import statistics

import numpy as np
from matplotlib import cm, colors, patches
from matplotlib.lines import Line2D

from adjustment import Network, covariance, redundancy_number
from places import ends, places_of
from sheet import Sheet, round_down, saved

GREY = "#b9b9b9"
LIMIT = "#3572b0"
BROKEN = "#c62828"
SHADES = colors.LinearSegmentedColormap.from_list("redundancy", ["#b2182b", "#ef8a3c", "#7fbf4d", "#1b7837", "#0b4a6f"])
LOOKS = {
    "distance": {"linestyle": "-", "linewidth": 1.8},
    "direction": {"linestyle": (0, (5, 2)), "linewidth": 1.6},
    "angle": {"linestyle": (0, (1, 1.2)), "linewidth": 1.8},
    "level": {"linestyle": (0, (7, 2, 1, 2)), "linewidth": 1.8},
    "vector": {"linestyle": "-", "linewidth": 3.0},
}
APART = 6.0
MANY = 60
PAPER = {"boxstyle": "round,pad=0.12", "facecolor": "white", "edgecolor": "none", "alpha": 0.8}
SPOTS = (0.0, 0.12, -0.12, 0.06, -0.06, 0.18, -0.18, 0.24, -0.24, 0.3, -0.3)


class Plan:
    """The chosen candidates with their rows, the covariance matrix in mm^2 (or none), and the least redundancy of each."""

    def __init__(self, network, candidates, report):
        is_chosen = set(report.taken) if report.is_plan else {c["name"] for c in candidates}
        self.chosen = [c for c in candidates if c["name"] in is_chosen]
        rows = {c["name"]: network.rows(c) for c in self.chosen}
        every = [row for own in rows.values() for row in own]
        self.inverse = covariance(every, len(network.numbers))
        self.loose = {i for i in network.numbers.values() if not any(i in row for row, _ in every)}
        self.redundancy = {}
        if self.inverse is not None:
            for name, own in rows.items():
                self.redundancy[name] = min(redundancy_number(self.inverse, row, weight) for row, weight in own)

    def block(self, numbers):
        """The covariance of some unknowns, or none where they aren't determined."""
        if self.inverse is None or self.loose & set(numbers):
            return None
        return np.array([[self.inverse[i][j] for j in numbers] for i in numbers])

    def shade(self, candidate):
        value = self.redundancy.get(candidate["name"])
        return "black" if value is None else SHADES(min(1, max(0, value)))


class NetworkPicture:
    """One drawing on one sheet."""

    def __init__(self, points, candidates, report):
        self.points, self.candidates, self.report = points, candidates, report
        self.network = Network(points, candidates)
        self.plan = Plan(self.network, candidates, report)
        self.places, self.schematic = places_of(points, candidates)
        self.used = {name for candidate in candidates for name in ends(candidate)}
        self.shown = [p for p in points if p["name"] in self.places]
        self.sizes = {p["name"]: self.errors(p) for p in self.shown}
        self.room, self.scale = self.scales()
        spots = [self.places[p["name"]] for p in self.shown] or [(0.0, 0.0)]
        self.sheet = Sheet(spots, max(1.9 * self.room, (0.06 if len(spots) > 1 else 0.4) * self.extent()))
        self.unit = self.sheet.unit
        self.thin = 1 if len(self.plan.chosen) <= MANY else 0.55

    def is_new(self, point):
        return point["plane"] not in ("", "fixed") or point["height"] not in ("", "fixed")

    def errors(self, point):
        """What is drawn at a point in mm: its ellipse (covariance block east, north) and limit; its height and limit."""
        name, found = point["name"], {}
        if (name, "x") in self.network.numbers:
            block = self.plan.block([self.network.numbers[name, part] for part in "yx"])
            found["plane"] = (block, float(point["plane"]))
        if (name, "z") in self.network.numbers:
            block = self.plan.block([self.network.numbers[name, "z"]])
            found["height"] = (None if block is None else math.sqrt(block[0][0]), float(point["height"]))
        return found

    def extent(self):
        spots = [self.places[p["name"]] for p in self.shown]
        if len(spots) < 2:
            return 100.0
        east, north = zip(*spots)
        return max(max(east) - min(east), max(north) - min(north)) or 100.0

    def scales(self):
        """The room around a new point in metres, and the metres of the sheet for a millimetre of error."""
        limits = [limit for sizes in self.sizes.values() for _, limit in sizes.values()]
        room = 0.075 * self.extent()
        if not limits:
            return room, None
        new = [self.places[name] for name, sizes in self.sizes.items() if sizes]
        others = [self.places[p["name"]] for p in self.shown if p["name"] in self.used] or new
        if len(others) > 1:
            gaps = [min((math.dist(a, b) for b in others if b != a), default=room) for a in new]
            room = min(room, 0.36 * statistics.median(gaps))
        return room, min(room / statistics.median(limits), 2 * room / max(limits))

    def draw(self):
        for point in self.shown:
            if not self.is_quiet(point):
                self.sheet.keep(self.places[point["name"]], 4 * self.unit)
        self.draw_candidates()
        for sizes, point in ((self.sizes[p["name"]], p) for p in self.shown):
            self.draw_errors(self.places[point["name"]], sizes)
        self.draw_points()
        self.draw_chosen()
        self.draw_scales()
        self.draw_key()
        self.draw_title()

    def draw_candidates(self):
        chosen = {c["name"] for c in self.plan.chosen}
        for candidate in self.candidates:
            if candidate["name"] not in chosen:
                start, *others = (self.places[name] for name in ends(candidate))
                for other in others:
                    self.sheet.axes.plot(*zip(start, other), color=GREY, linewidth=0.7, zorder=1)

    def draw_errors(self, place, sizes):
        east, north = place
        beside = 0.0
        if "plane" in sizes:
            block, limit = sizes["plane"]
            beside = limit * self.scale
            self.add(patches.Circle(place, beside, fill=False, edgecolor=LIMIT, linewidth=0.9, linestyle="--"), 2)
            if block is not None:
                beside = max(beside, self.draw_ellipse(place, block, limit))
            self.sheet.keep(place, 0.6 * beside)
        if "height" in sizes:
            self.draw_height((east + beside + 8 * self.unit, north), *sizes["height"])

    def add(self, patch, order):
        patch.set_zorder(order)
        self.sheet.axes.add_patch(patch)

    def draw_ellipse(self, place, block, limit):
        """Draws the standard ellipse; its semi-major axis on the sheet."""
        squares, axes = np.linalg.eigh(block)
        minor, major = np.sqrt(np.maximum(squares, 0))
        turn = math.degrees(math.atan2(axes[1][1], axes[0][1]))
        colour = BROKEN if major > 1.01 * limit else "black"
        width, height = 2 * self.scale * major, 2 * self.scale * minor
        self.add(patches.Ellipse(place, width, height, angle=turn, facecolor=colour, alpha=0.12), 2)
        self.add(patches.Ellipse(place, width, height, angle=turn, fill=False, edgecolor=colour, linewidth=1.2), 4)
        return width / 2

    def draw_height(self, place, deviation, limit):
        east, north = place
        reach, cap = limit * self.scale, 4 * self.unit
        for side in (-reach, reach):
            self.sheet.axes.plot([east - cap, east + cap], [north + side] * 2, color=LIMIT, linewidth=1.2, zorder=4)
        upright = [east, east]
        self.sheet.axes.plot(upright, [north - reach, north + reach], color=LIMIT, linewidth=0.8, linestyle="--", zorder=2)
        for part in range(-2, 3):
            self.sheet.keep((east, north + part * reach / 2), max(cap, reach / 4) if part else cap)
        if deviation is not None:
            colour = BROKEN if deviation > 1.01 * limit else "black"
            half = deviation * self.scale
            look = {"linewidth": 3.2, "zorder": 4, "solid_capstyle": "butt"}
            self.sheet.axes.plot(upright, [north - half, north + half], color=colour, **look)

    def draw_chosen(self):
        """Observations between the same two points lie beside each other."""
        beside, labels = {}, []
        for candidate in self.plan.chosen:
            start, *others = ends(candidate)
            for other in others:
                beside.setdefault(frozenset((start, other)), []).append((candidate, start, other))
        for lines in beside.values():
            for place, (candidate, start, other) in enumerate(lines):
                shift = (place - (len(lines) - 1) / 2) * APART * self.thin * self.unit
                labels.append((candidate, place % 3, *self.draw_line(candidate, start, other, shift)))
        for candidate in self.plan.chosen:
            if candidate["kind"] == "angle":
                self.draw_arc(candidate)
        self.draw_names(labels)

    def draw_line(self, candidate, start, other, shift):
        a, b = sorted((start, other))
        along = np.subtract(self.places[b], self.places[a])
        across = np.array([-along[1], along[0]]) / (np.hypot(*along) or 1) * shift
        line = [np.add(self.places[name], across) for name in (start, other)]
        colour = self.plan.shade(candidate)
        look = dict(LOOKS[candidate["kind"]])
        look["linewidth"] *= self.thin
        self.sheet.axes.plot(*zip(*line), color=colour, zorder=3, **look)
        if candidate["kind"] in ("direction", "vector"):
            near, far = (line[0] + part * (line[1] - line[0]) for part in (0.68, 0.7))
            arrow = {"arrowstyle": "-|>", "color": colour, "mutation_scale": 5 + 8 * self.thin, "shrinkA": 0, "shrinkB": 0}
            self.sheet.axes.annotate("", xy=far, xytext=near, zorder=3, arrowprops=arrow)
        return line

    def draw_arc(self, candidate):
        vertex, back, fore = (self.places[name] for name in ends(candidate))
        turns = [math.degrees(math.atan2(p[1] - vertex[1], p[0] - vertex[0])) for p in (fore, back)]
        radius = 0.28 * min(math.dist(vertex, back), math.dist(vertex, fore))
        size = 2 * min(radius, 18 * self.unit)
        look = {"color": self.plan.shade(candidate), "linewidth": 1.8 * self.thin}
        self.add(patches.Arc(vertex, size, size, theta1=turns[0], theta2=turns[1], **look), 3)

    def draw_names(self, labels):
        named = set()
        size = 7.5 if len(self.plan.chosen) <= MANY else 5.5
        look = {"zorder": 6, "bbox": PAPER}
        for candidate, place, start, other in labels:
            if candidate["name"] not in named:
                parts = SPOTS[place:] + SPOTS[:place]
                middle = (start + other) / 2
                along = (other - start) if candidate["from"] < candidate["to"] else (start - other)
                spots = [tuple(middle + part * along) for part in parts]
                colour = self.plan.shade(candidate)
                if self.sheet.label(spots, candidate["name"], size, color=colour, **look):
                    named.add(candidate["name"])

    def is_quiet(self, point):
        """A point that nothing observes, among many."""
        return len(self.shown) > MANY and point["name"] not in self.used and not self.is_new(point)

    def draw_points(self):
        size = 9 if len(self.used) <= MANY else 6
        for point in self.shown:
            if self.is_new(point):
                look = {"marker": "o", "markerfacecolor": "white", "markersize": 0.67 * size}
            elif self.is_quiet(point):
                look = {"marker": ".", "markersize": 1, "markeredgecolor": GREY}
            elif "fixed" in (point["plane"], point["height"]):
                look = {"marker": "^", "markerfacecolor": "black", "markersize": 0.67 * size}
            else:
                look = {"marker": "x", "markersize": 0.5 * size}
            look = {"markeredgecolor": "black", "zorder": 1 if self.is_quiet(point) else 5, **look}
            self.sheet.axes.plot(*self.places[point["name"]], linestyle="none", **look)
        for point in sorted(self.shown, key=self.is_new, reverse=True):
            if not self.is_quiet(point):
                self.name_point(point, size)

    def name_point(self, point, size):
        name, is_new = point["name"], self.is_new(point)
        ellipse = self.sizes[name].get("plane")
        disk = ellipse[1] * self.scale if ellipse else 0
        near = 4 * self.unit
        radii = (disk, disk + 6 * self.unit, near) if near < disk < 60 * self.unit else (near, 2 * near, disk + near)
        look = {"weight": "bold" if is_new else "normal", "zorder": 7, "bbox": PAPER}
        self.sheet.label(self.sheet.around(self.places[name], name, size, radii), name, size, is_new, **look)

    def draw_scales(self):
        """The bars stand in the strip beneath the network."""
        sheet = self.sheet
        low = sheet.low + 9 * self.unit
        width = sheet.right - sheet.left
        if len(self.schematic) < len(self.shown):
            length = round_down(0.2 * width)
            words = f"{length:g} m" if length < 1000 else f"{length / 1000:g} km"
            sheet.bar((sheet.left + 0.03 * width, low), length, words, color="black", linewidth=1.2)
            sheet.axes.annotate(
                "", xy=(sheet.right - 14 * self.unit, low + 18 * self.unit), xytext=(sheet.right - 14 * self.unit, low),
                arrowprops={"arrowstyle": "-|>", "color": "black"},
            )
            sheet.axes.text(sheet.right - 20 * self.unit, low + 8 * self.unit, "x", fontsize=9, ha="right")
        if self.scale:
            length = round_down(0.16 * width / self.scale)
            parts = {part for sizes in self.sizes.values() for part in sizes}
            names = [word for part, word in (("plane", "ellipses"), ("height", "heights")) if part in parts]
            words = f"{length:g} mm of {' and '.join(names)}"
            sheet.bar((sheet.left + 0.33 * width, low), length * self.scale, words, color=LIMIT, linewidth=1.2)
        if self.schematic:
            text = "a scheme: the table has no coordinates" if len(self.schematic) == len(self.shown) else \
                "beneath: points without coordinates"
            sheet.axes.text(sheet.left + 0.62 * width, low, text, fontsize=8, style="italic", va="bottom")

    def draw_key(self):
        kinds = [kind for kind in LOOKS if any(c["kind"] == kind for c in self.plan.chosen)]
        count = {kind: sum(c["kind"] == kind for c in self.plan.chosen) for kind in kinds}
        parts = {part for sizes in self.sizes.values() for part in sizes}
        disk = {"marker": "o", "linestyle": "none"}
        key = [
            Line2D([], [], marker="^", color="black", linestyle="none", label="fixed point"),
            Line2D([], [], marker="o", markerfacecolor="white", color="black", linestyle="none", label="new point"),
            Line2D([], [], color=GREY, linewidth=0.9, label="candidate, not chosen"),
        ]
        key += [Line2D([], [], color="black", label=f"{kind} ({count[kind]})", **LOOKS[kind]) for kind in kinds]
        if "plane" in parts:
            key.append(Line2D([], [], markersize=9, markerfacecolor="#e0e0e0", color="black", label="standard ellipse", **disk))
            key.append(Line2D([], [], markersize=11, fillstyle="none", color=LIMIT, label="its limit", **disk))
        if "height" in parts:
            key.append(Line2D([], [], color="black", linewidth=3.2, label="standard deviation of a height"))
            key.append(Line2D([], [], color=LIMIT, linewidth=0.9, linestyle="--", label="its limit"))
        if self.plan.inverse is None:
            key.append(Line2D([], [], linestyle="none", label="no ellipses: the normal\nmatrix has no inverse"))
        look = {"frameon": False, "fontsize": 8.5, "handlelength": 3.2}
        self.sheet.figure.legend(handles=key, loc="upper left", bbox_to_anchor=(0.765, 0.895), **look)
        if self.plan.redundancy:
            self.draw_shades()

    def draw_shades(self):
        axes = self.sheet.figure.add_axes((0.83, 0.06, 0.018, 0.34))
        bar = self.sheet.figure.colorbar(cm.ScalarMappable(colors.Normalize(0, 1), SHADES), cax=axes)
        bar.set_label("redundancy number (the least of its rows)", fontsize=8.5)
        bar.ax.tick_params(labelsize=8)
        asked = self.report.redundancy
        if asked:
            axes.axhline(asked, color="black", linewidth=2)
            look = {"textcoords": "offset points", "fontsize": 7, "ha": "right", "va": "center"}
            axes.annotate(f"limit {asked:.3f}", (0, asked), xytext=(-4, 0), **look)
        least = min(self.plan.redundancy.values())
        axes.set_title(f"least {abs(least) if abs(least) < 5e-4 else least:.3f}", fontsize=8.5, pad=5)

    def draw_title(self):
        new = sum(map(self.is_new, self.points))
        points = "1 point" if len(self.points) == 1 else f"{len(self.points)} points"
        words = f"{points}, {new} new; {len(self.plan.chosen)} of {len(self.candidates)} observations"
        if not self.report.is_plan:
            words += " (all of them are drawn as if chosen)"
        self.sheet.figure.text(0.02, 0.955, self.report.headline(), fontsize=14, weight="bold")
        self.sheet.figure.text(0.02, 0.915, words, fontsize=9.5)


def draw_network(points, candidates, report, path):
    picture = NetworkPicture(points, candidates, report)
    picture.draw()
    saved(picture.sheet.figure, path)
