"""Measures searches on networks of several kinds: the built program, and beside it in the same run others, where they are
told.

    python3 tools/bench_plans.py PROGRAM [--other NAME=COMMAND].. [--rows WORD] [--seconds N] [--runs N] [--check]
    python3 tools/bench_plans.py PROGRAM --stations SHARE [--seconds N] [--runs N]

PROGRAM is crates/geoplan_cli/out/geoplan_cli after `rt run` there. COMMAND is a program with its arguments, in which
{points}, {candidates}, {redundancy} and {log} stand for the files and the number; what it prints has the word `cost` or
`NOPLAN` or `no plan` in it. Nodes are counted in the log that a program writes: its splits and leaves; where it writes
none, they are those that it prints after `nodes`, if any. WORD is `small` (the default), `middle`, `all`, or `large`, which has
the rows of `all` that `middle` hasn't; each run is ended after N seconds (60), and the least time of so many runs (1)
counts. Seconds are of the processor, the log included. With --check each log that PROGRAM ended is replayed by its
`check`, and a last column has those seconds.

With --stations the networks are mixed ones of 4 to 8 points, in which setting up an instrument costs SHARE times what a
candidate does on average; each is planned with and without those prices, and the last columns have how many times the
nodes and the seconds the former takes.
"""
import argparse
import math
import os
import re
import resource
import shlex
import subprocess
import tempfile

import plan_networks

# Kind, size, factor of the limits. The seed is 1; each is planned with a redundancy of 0 and of 0.200.
SMALL = [(kind, size, factor) for kind, size in (("level", 8), ("trilat", 8), ("gnss", 8), ("mixed", 4)) for factor in (1.2, 1.5)]
MIDDLE = [(kind, size, factor) for kind, size in (("level", 12), ("trilat", 12), ("gnss", 10), ("gnss", 12), ("mixed", 6))
          for factor in (1.2, 1.5)]
LARGE = [(kind, size, factor) for kind, size in (("level", 16), ("trilat", 16), ("gnss", 15), ("mixed", 8)) for factor in (1.2, 1.5)]
WITH_STATIONS = [("mixed", 4, 1.5), ("mixed", 5, 1.5), ("mixed", 6, 1.5), ("mixed", 6, 1.2), ("mixed", 8, 1.2)]
ROWS = {"small": SMALL, "middle": SMALL + MIDDLE, "large": LARGE, "all": SMALL + MIDDLE + LARGE}


class Run:
    """What a program said of a network: its cost (`no plan`, or none at the end of its time), nodes, lines, seconds."""

    def __init__(self, cost, nodes, lines, seconds, is_ended):
        self.cost, self.nodes, self.lines, self.seconds, self.is_ended = cost, nodes, lines, seconds, is_ended

    def cells(self):
        sign = "" if self.is_ended else ">"
        words = [self.cost or "?", self.nodes or "-", self.lines or "-"]
        return " | ".join([str(word) for word in words] + [sign + "%.2f" % self.seconds])


def processor_seconds(command, seconds, folder):
    """The processor time of a run, what it printed, and whether it ended by itself."""
    before = resource.getrusage(resource.RUSAGE_CHILDREN)
    is_ended, out = True, b""
    try:
        out = subprocess.run(command, stdout=subprocess.PIPE, stderr=subprocess.DEVNULL, timeout=seconds, cwd=folder).stdout
    except subprocess.TimeoutExpired:
        is_ended = False
    after = resource.getrusage(resource.RUSAGE_CHILDREN)
    spent = after.ru_utime + after.ru_stime - before.ru_utime - before.ru_stime
    return spent, out.decode(errors="replace"), is_ended


def log_counts(path):
    """How many nodes and lines a log has, but for the names of cuts: a node is a split or a leaf."""
    if not os.path.exists(path):
        return None, None
    with open(path, "rb") as file:
        kinds = [line[:1] for line in file]
    return sum(kind in (b"s", b"c", b"p", b"x", b"d") for kind in kinds), len(kinds)


def answer_of(text):
    """The cost that a program printed, or that there is no plan."""
    found = re.search(r"\bcost (\d+)", text)
    if found:
        return found.group(1)
    return "no plan" if re.search(r"no plan|NOPLAN", text) else None


def measured(command, seconds, runs, folder):
    """The least of several runs in a folder with both tables."""
    log, best = os.path.join(folder, "out.log"), None
    for _ in range(runs):
        if os.path.exists(log):
            os.remove(log)
        spent, text, is_ended = processor_seconds(command, seconds, folder)
        nodes, lines = log_counts(log)
        told = re.search(r"\bnodes (\d+)", text)
        run = Run(answer_of(text), nodes if lines else told and told.group(1), lines, spent, is_ended)
        if best is None or run.seconds < best.seconds:
            best = run
    return best


def commands_of(program, others, redundancy):
    """The commands by their names; they run in the folder of the tables."""
    names = {"points": "points.csv", "candidates": "candidates.csv", "redundancy": str(redundancy), "log": "out.log"}
    own = [os.path.abspath(program), "plan", names["points"], names["candidates"], names["redundancy"], names["log"]]
    told = [other.split("=", 1) for other in others]
    return [("geoplan", own)] + [(name, [word.format(**names) for word in shlex.split(text)]) for name, text in told]


def replayed(command, seconds, folder):
    """How long `check` takes on the log that a search wrote, as a cell; `REFUSED` where it doesn't accept it."""
    check = [command[0], "check"] + command[2:]
    spent, text, is_ended = processor_seconds(check, seconds, folder)
    if not is_ended:
        return ">%.2f" % spent
    return "%.3f" % spent if "bound " in text else "REFUSED"


def print_row(row, redundancy, words):
    """Measures a network and prints its row; answers the seconds by the name of the program, of runs that ended."""
    kind, size, factor = row
    with tempfile.TemporaryDirectory() as folder:
        count = plan_networks.write_tables(kind, size, 1, factor, folder)
        commands = commands_of(words.program, words.other, redundancy)
        own = measured(commands[0][1], words.seconds, words.runs, folder)
        check = replayed(commands[0][1], words.seconds, folder) if words.check and own.is_ended else "-"
        runs = [("geoplan", own)] + [(name, measured(command, words.seconds, words.runs, folder)) for name, command in commands[1:]]
    cells = " | ".join([run.cells() for _name, run in runs] + ([check] if words.check else []))
    costs = {run.cost for _name, run in runs if run.cost}
    doubt = " | COSTS DIFFER" if len(costs) > 1 else ""
    print("| %s-%d-%s | %d | %d | %s |%s" % (kind, size, factor, redundancy, count, cells, doubt), flush=True)
    return {name: run for name, run in runs if run.is_ended and run.cost}


def times(more, less, least):
    """How many times one number is another, where both are told; neither counts less than `least`."""
    if more is None or less is None:
        return "-"
    return "%.2f" % (max(float(more), least) / max(float(less), least))


def print_stations_row(row, redundancy, words):
    """Plans a network with and without prices of stations, and prints its row."""
    kind, size, factor = row
    with tempfile.TemporaryDirectory() as folder:
        count = plan_networks.write_tables(kind, size, 1, factor, folder, words.stations)
        command = commands_of(words.program, [], redundancy)[0][1]
        free = measured(command, words.seconds, words.runs, folder)
        paid = measured(command + ["stations.csv"], words.seconds, words.runs, folder)
    cells = "%s | %s | %s | %s" % (
        free.cells(), paid.cells(), times(paid.nodes, free.nodes, 1), times(paid.seconds, free.seconds, 0.01))
    print("| %s-%d-%s | %d | %d | %s |" % (kind, size, factor, redundancy, count, cells), flush=True)


def print_stations_table(words):
    """Prints what prices of stations cost a search."""
    heads = " | ".join("%s: cost | nodes | lines | seconds" % name for name in ("without", "with stations"))
    print("| network | redundancy | candidates | %s | times the nodes | times the seconds |" % heads)
    print("|---" * 13 + "|")
    for row in WITH_STATIONS:
        for redundancy in (0, 200):
            print_stations_row(row, redundancy, words)


def mean_of(pairs, least):
    """The geometric mean of the ratios of pairs of numbers, none of which counts less than `least`."""
    return math.exp(sum(math.log(max(float(a), least) / max(float(b), least)) for a, b in pairs) / len(pairs))


def print_means(rows, names):
    """For each kind and other program the geometric means of the seconds and nodes of geoplan over its own, where both ended."""
    for name in names[1:]:
        for kind in plan_networks.KINDS:
            both = [(runs["geoplan"], runs[name]) for of, runs in rows if of == kind and len({"geoplan", name} & set(runs)) == 2]
            if not both:
                continue
            seconds = mean_of([(own.seconds, other.seconds) for own, other in both], 0.005)
            counted = [(own.nodes, other.nodes) for own, other in both if own.nodes and other.nodes]
            nodes = "%.2f times the nodes" % mean_of(counted, 1) if counted else "nodes aren't told"
            print("%s: geoplan takes %.2f times the seconds of %s, %s (%d networks)" % (kind, seconds, name, nodes, len(both)))


def main():
    parser = argparse.ArgumentParser(description=__doc__, formatter_class=argparse.RawDescriptionHelpFormatter)
    parser.add_argument("program")
    parser.add_argument("--other", action="append", default=[])
    parser.add_argument("--rows", choices=sorted(ROWS), default="small")
    parser.add_argument("--seconds", type=float, default=60)
    parser.add_argument("--runs", type=int, default=1)
    parser.add_argument("--check", action="store_true")
    parser.add_argument("--stations", type=float)
    words = parser.parse_args()
    if words.stations is not None:
        print_stations_table(words)
        return
    names = ["geoplan"] + [other.split("=", 1)[0] for other in words.other]
    heads = " | ".join("%s: cost | nodes | lines | seconds" % name for name in names)
    last = " check |" if words.check else ""
    print("| network | redundancy | candidates | %s |%s" % (heads, last))
    print("|---" * (3 + 4 * len(names) + words.check) + "|")
    rows = [(row[0], print_row(row, redundancy, words)) for row in ROWS[words.rows] for redundancy in (0, 200)]
    print_means(rows, names)


if __name__ == "__main__":
    main()
