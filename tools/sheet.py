"""A sheet for drawing at a known scale: how large a point of print is in metres, and labels that keep off each other."""
import math

import matplotlib
from matplotlib import pyplot

matplotlib.use("Agg")
matplotlib.rcParams["svg.hashsalt"] = "geoplan"
matplotlib.rcParams["font.family"] = "DejaVu Sans"
matplotlib.rcParams["text.parse_math"] = False

WIDTH, HEIGHT = 11.0, 7.6
FRAME = (0.02, 0.03, 0.74, 0.86)
LETTER = 0.7
LONGEST = 16


def saved(figure, path):
    """Writes PATH.svg and PATH.png, the same bytes each time."""
    figure.savefig(f"{path}.svg", metadata={"Date": None})
    figure.savefig(f"{path}.png", dpi=130)
    pyplot.close(figure)


def round_down(value):
    """The largest of 1, 2 and 5 times a power of ten that isn't above the value."""
    power = 10.0 ** math.floor(math.log10(value))
    return max(digit * power for digit in (1, 2, 5) if digit * power <= value * 1.0000001)


class Sheet:
    """Axes over the given places with equal scales."""

    def __init__(self, places, room):
        """The places are pairs of metres; the room is what is drawn around each of them at most."""
        self.figure = pyplot.figure(figsize=(WIDTH, HEIGHT))
        self.axes = self.figure.add_axes(FRAME)
        self.axes.set_xticks([])
        self.axes.set_yticks([])
        east, north = zip(*places)
        width, height = WIDTH * FRAME[2], HEIGHT * FRAME[3]
        scale = max((max(east) - min(east) + 2 * room) / width, (max(north) - min(north) + 2 * room) / (0.92 * height))
        middle = ((min(east) + max(east)) / 2, (min(north) + max(north)) / 2 - 0.04 * height * scale)
        self.left, self.right = middle[0] - scale * width / 2, middle[0] + scale * width / 2
        self.low, self.high = middle[1] - scale * height / 2, middle[1] + scale * height / 2
        self.axes.set_xlim(self.left, self.right)
        self.axes.set_ylim(self.low, self.high)
        self.unit = scale / 72
        self.taken = []

    def box(self, place, text, size):
        """The corners of a text that stands with its middle at a place."""
        lines = text.split("\n")
        width = LETTER * size * max(map(len, lines)) * self.unit / 2
        height = 0.62 * size * len(lines) * self.unit
        return place[0] - width, place[1] - height, place[0] + width, place[1] + height

    def is_free(self, box):
        left, low, right, high = box
        if left < self.left or right > self.right or low < self.low or high > self.high:
            return False
        return not any(left < r and l < right and low < h and o < high for l, o, r, h in self.taken)

    def keep(self, place, radius):
        """Lets no label stand there."""
        self.taken.append((place[0] - radius, place[1] - radius, place[0] + radius, place[1] + radius))

    def label(self, places, text, size, is_needed=False, **look):
        """Writes a text at the first of the places that is free, or at the first one where it is needed; whether it did."""
        text = text if len(text) <= LONGEST else text[: LONGEST - 1] + "\u2026"
        places = list(places)
        free = [place for place in places if self.is_free(self.box(place, text, size))]
        if not free and not is_needed:
            return False
        place = (free or places)[0]
        self.taken.append(self.box(place, text, size))
        self.axes.text(*place, text, fontsize=size, ha="center", va="center", **look)
        return True

    def around(self, place, text, size, radii):
        """Places for a label beside each of some disks."""
        _, _, right, high = self.box((0, 0), text[:LONGEST], size)
        for reach in (radius + 2 * self.unit for radius in radii):
            for turn in (45, 135, 315, 225, 90, 270, 0, 180):
                c, s = math.cos(math.radians(turn)), math.sin(math.radians(turn))
                yield place[0] + reach * c + right * c, place[1] + reach * s + high * s

    def bar(self, place, length, text, **look):
        """A scale bar with its text above it."""
        east, north = place
        tick = 3 * self.unit
        self.axes.plot(
            [east, east, east, east + length, east + length, east + length],
            [north + tick, north - tick, north, north, north + tick, north - tick],
            solid_joinstyle="miter", **look
        )
        self.axes.text(east, north + 2 * tick, text, fontsize=8, ha="left", va="bottom", color=look.get("color", "black"))
        self.taken.append((east, north - 2 * tick, east + max(length, 110 * self.unit), north + 16 * self.unit))
