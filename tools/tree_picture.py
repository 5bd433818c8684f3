"""The picture of a log: the nodes of its tree by depth, the kinds of its leaves, and their bounds."""
from matplotlib import pyplot
from matplotlib.collections import LineCollection
from matplotlib.lines import Line2D
from matplotlib.ticker import MaxNLocator

from logtree import NoLog, Tree
from sheet import saved

KINDS = {
    "s": ("split", "#9a9a9a", "o"),
    "c": ("price leaf", "#1b7837", "o"),
    "p": ("limit that refutes (p)", "#b2182b", "s"),
    "x": ("cut that refutes (x)", "#ef8a3c", "D"),
    "d": ("dual bound (d)", "#3572b0", "^"),
}
PAPER = {"boxstyle": "square,pad=0.05", "facecolor": "white", "edgecolor": "none"}
FEW = 80
MANY = 1500


class Drawn:
    """The nodes in the order of the log: each with the number of leaves before it, and its parent."""

    def __init__(self, path, prices):
        self.tree = Tree(prices)
        self.nodes, self.parents = [], []
        above, leaves = [], 0
        self.columns = []
        with open(path, "rb") as file:
            for line in file:
                if not line.endswith(b"\n"):
                    break
                node = self.tree.add(line[:-1])
                if node is None:
                    continue
                while above and self.nodes[above[-1]].depth >= node.depth:
                    above.pop()
                self.parents.append(above[-1] if above else None)
                above.append(len(self.nodes))
                self.nodes.append(node)
                self.columns.append(leaves)
                leaves += node.kind != "s"
        self.centre()

    def centre(self):
        """A split stands over the middle of its children."""
        sums = {}
        for place in reversed(range(len(self.nodes))):
            if place in sums:
                total, count = sums[place]
                self.columns[place] = total / count
            if self.parents[place] is not None:
                total, count = sums.get(self.parents[place], (0, 0))
                sums[self.parents[place]] = (total + self.columns[place], count + 1)

    def of(self, kind):
        return [place for place, node in enumerate(self.nodes) if node.kind == kind]


def draw_branches(axes, drawn, names):
    nodes = drawn.nodes
    is_many = len(nodes) > MANY
    edges = [
        [(drawn.columns[up], nodes[up].depth), (drawn.columns[place], nodes[place].depth)]
        for place, up in enumerate(drawn.parents) if up is not None
    ]
    width = 0.9 if len(nodes) <= FEW * 4 else 0.35
    axes.add_collection(LineCollection(edges, colors="#c4c4c4", linewidths=width, zorder=1, rasterized=is_many))
    size = 46 if len(nodes) <= FEW else 12 if not is_many else 2
    for kind, (_, colour, marker) in KINDS.items():
        places = drawn.of(kind)
        if places:
            spots = [drawn.columns[p] for p in places], [nodes[p].depth for p in places]
            look = {"marker": marker, "linewidths": 0, "zorder": 2, "rasterized": is_many}
            axes.scatter(*spots, s=size if kind != "s" else size / 2, c=colour, **look)
    if len(nodes) <= FEW:
        write_nodes(axes, drawn, names)
    axes.set_ylim(max(node.depth for node in nodes) + 0.7, -0.7)
    axes.yaxis.set_major_locator(MaxNLocator(integer=True))
    axes.set_xticks([])
    axes.margins(x=0.04)
    axes.set_ylabel("depth")
    axes.set_xlabel("leaves in the order of the log; left of a split are the plans that contain its observation")


def write_nodes(axes, drawn, names):
    look = {"textcoords": "offset points", "fontsize": 7, "ha": "center"}
    for place, node in enumerate(drawn.nodes):
        spot = drawn.columns[place], node.depth
        if node.kind == "s":
            axes.annotate(names[node.split], spot, xytext=(0, 4), va="bottom", color="#444444", bbox=PAPER, **look)
        elif node.kind == "c":
            axes.annotate(str(node.price), spot, xytext=(0, -6), va="top", color=KINDS["c"][1], **look)


def draw_depths(axes, drawn):
    """How many nodes of each kind there are at each depth."""
    depths = range(max(node.depth for node in drawn.nodes) + 1)
    before = [0] * len(depths)
    for kind, (_, colour, _) in KINDS.items():
        counts = [0] * len(depths)
        for node in drawn.nodes:
            counts[node.depth] += node.kind == kind
        if any(counts):
            axes.barh(depths, counts, left=before, color=colour, height=0.85 if len(depths) <= FEW else 1, linewidth=0)
            before = [a + b for a, b in zip(before, counts)]
    axes.xaxis.set_major_locator(MaxNLocator(nbins=4, integer=True))
    axes.set_xlabel("nodes")
    axes.tick_params(labelleft=False)


def draw_bounds(axes, drawn, report):
    places = drawn.of("c")
    is_many = len(places) > MANY
    axes.scatter(places, [drawn.nodes[p].price for p in places], s=3 if is_many else 12, c=KINDS["c"][1], linewidths=0,
                 rasterized=is_many, label="price of a price leaf")
    if report.bound not in (None, "none"):
        axes.axhline(int(report.bound), color="black", linewidth=1, label=f"bound {report.bound}")
    axes.set_xlim(-0.01 * len(drawn.nodes) - 0.5, 1.01 * len(drawn.nodes) + 0.5)
    axes.xaxis.set_major_locator(MaxNLocator(integer=True))
    axes.yaxis.set_major_locator(MaxNLocator(nbins=5, integer=True))
    axes.margins(y=0.2)
    axes.set_xlabel("node, in the order of the log")
    axes.set_ylabel("price")
    if places or report.bound not in (None, "none"):
        axes.legend(loc="lower right", bbox_to_anchor=(1.01, 0.98), ncol=2, fontsize=8, frameon=False)
    else:
        axes.set_yticks([])
        axes.text(0.5, 0.5, "no leaf has a price: no plan is left", transform=axes.transAxes, ha="center", va="center")


def counted(count, one, many):
    return f"{count} {one if count == 1 else many}"


def draw_tree(log, candidates, report, path):
    """Draws what there is of a log; the title says where it isn't whole."""
    drawn = Drawn(log, [int(candidate["price"]) for candidate in candidates])
    tree = drawn.tree
    if not drawn.nodes:
        raise NoLog("the log has no node yet")
    figure = pyplot.figure(figsize=(11, 7.6))
    sides = {"left": 0.07, "right": 0.97, "bottom": 0.08, "top": 0.86, "hspace": 0.28, "wspace": 0.05}
    grid = figure.add_gridspec(2, 2, width_ratios=(5, 1), height_ratios=(3, 1), **sides)
    branches = figure.add_subplot(grid[0, 0])
    draw_branches(branches, drawn, [candidate["name"] for candidate in candidates])
    draw_depths(figure.add_subplot(grid[0, 1], sharey=branches), drawn)
    draw_bounds(figure.add_subplot(grid[1, :]), drawn, report)
    key = [
        Line2D([], [], color=colour, marker=marker, linestyle="none", label=f"{words}: {tree.counts[kind]}")
        for kind, (words, colour, marker) in KINDS.items() if tree.counts[kind]
    ]
    figure.legend(handles=key, loc="upper left", bbox_to_anchor=(0.06, 0.925), ncol=5, fontsize=8.5, frameon=False)
    state = "" if tree.is_whole() else f"; not whole yet: {100 * tree.share():.2f} % is done"
    nodes = counted(len(drawn.nodes), "node", "nodes")
    leaves = counted(len(drawn.nodes) - tree.counts["s"], "leaf", "leaves")
    words = f"the log's tree: {nodes}, {leaves}, bound {report.bound}{state}"
    figure.text(0.07, 0.95, words, fontsize=14, weight="bold")
    saved(figure, path)
