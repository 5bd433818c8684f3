"""The tree of a log of `geoplan`, line by line as it comes, both of a log that is whole and of one that is being written.

It believes the log: it says where a node stands in the tree and what its line is, and leaves to `geoplan check` whether
the line is allowed there.
"""
import re
from typing import NamedTuple

HEADS = (b"geoplan-log 1", b"geoplan-log 2")
LINE = re.compile(rb"s [0-9]+|c|[kpxd]( -?[0-9]+)+")
DEEPEST = 256
WHOLE = 1 << DEEPEST


class NoLog(Exception):
    """A line that no log has, by its number."""


class Node(NamedTuple):
    """A line of the tree: its kind (s, c, p, x or d), its depth, and the price of what its plans contain, if known."""

    kind: str
    depth: int
    price: int | None
    split: int | None


class Tree:
    """How much of a tree has come, and its open nodes, the next one last."""

    def __init__(self, prices=None):
        """The prices are those of the candidates; without them no price is known."""
        self.prices = prices
        self.is_begun = False
        self.lines = 0
        self.done = 0
        self.counts = dict.fromkeys("scpxd", 0)
        self.least = None
        self.open = [(0, 0 if prices is not None else None)]

    def is_whole(self):
        return self.is_begun and not self.open

    def share(self):
        """The sum of 2^-depth over the leaves so far."""
        return self.done / WHOLE

    def deepest_open(self):
        """Children come before what is beside their parent, so the next node is a deepest one."""
        return self.open[-1][0] if self.open else None

    def add(self, line):
        """Takes the next line, without its LF: its node, or None where it is none (the head, or the name of a cut)."""
        self.lines += 1
        if not self.is_begun:
            if line not in HEADS:
                raise NoLog(f"line 1 isn't the head of a log: {line[:40]!r}")
            self.is_begun = True
            return None
        if not LINE.fullmatch(line) or not self.open:
            raise NoLog(f"line {self.lines} is no line of a log, or one too many: {line[:40]!r}")
        kind = chr(line[0])
        if kind == "k":
            return None
        self.counts[kind] += 1
        depth, price = self.open.pop()
        if kind == "s":
            return self.split(depth, price, int(line.split(b" ")[1]))
        self.done += WHOLE >> depth
        if kind == "c" and price is not None:
            self.least = price if self.least is None else min(self.least, price)
        return Node(kind, depth, price, None)

    def split(self, depth, price, candidate):
        if depth == DEEPEST or (self.prices is not None and candidate >= len(self.prices)):
            raise NoLog(f"line {self.lines} splits on candidate {candidate}, at depth {depth}")
        self.open.append((depth + 1, price))
        self.open.append((depth + 1, None if price is None else price + self.prices[candidate]))
        return Node("s", depth, price, candidate)
