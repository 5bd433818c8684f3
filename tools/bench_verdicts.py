"""Measures what a verdict costs, with the built program verdict_cli.

    python3 tools/bench_verdicts.py PROGRAM [TIMES]           prints a row of a table for each network
    python3 tools/bench_verdicts.py --instructions PROGRAM    the same in instructions, for some of the networks
    python3 tools/bench_verdicts.py --stacks PROGRAM          what a change of one candidate costs a stack
    python3 tools/bench_verdicts.py --stack-instructions PROGRAM   the same in instructions, under the first limit
    python3 tools/bench_verdicts.py --floor                   the least that full chains can cost
    python3 tools/bench_verdicts.py --inputs FOLDER           writes the inputs alone, each verdict once

PROGRAM is crates/verdict_cli/out/verdict_cli after `rt run` there. Each verdict is reckoned TIMES times (200
if it isn't told) and once, three times each, and the least processor times are subtracted. The networks are
made from a seed, so each run has the same. Instructions are counted by valgrind's callgrind, and don't depend
on what else the machine does.
"""
import itertools
import os
import random
import resource
import subprocess
import sys
import tempfile

POINTS_HEADER = "name,x,y,z,plane,height"
CANDIDATES_HEADER = "name,kind,from,to,to2,sd,sdh,price"

# The limits in mm: with the first all are met, with the second all are refuted.
LIMITS = ("100.0", "0.1")


class Network:
    """The records of two tables. A point's place and its limit are filled in by `points_text`."""

    def __init__(self, title, kind, fixed, new, candidates):
        self.title, self.kind = title, kind
        self.fixed, self.new, self.candidates = fixed, new, candidates


def numbered(kind, ends, deviation):
    """The records of candidates of one kind, each with its from, to and to2."""
    return [(kind, end[0], end[1], end[2] if len(end) > 2 else "", deviation) for end in ends]


def levelling_line(count):
    names = ["A"] + ["N%d" % k for k in range(count)] + ["B"]
    ends = list(zip(names, names[1:]))
    return Network("levelling line", "height", ["A", "B"], names[1:-1], numbered("level", ends, "0.50"))


def random_levels(count):
    """A line from a fixed height over all others, and levels of random pairs, at most 256 in all."""
    rng = random.Random(count)
    names = ["A"] + ["N%d" % k for k in range(count)]
    line = list(zip(names, names[1:]))
    others = [pair for pair in itertools.combinations(names, 2) if pair not in line]
    ends = line + rng.sample(others, min(len(others), 256 - len(line)))
    return Network("levels, random pairs", "height", ["A"], names[1:], numbered("level", ends, "0.50"))


def random_distances(count):
    """Two distances from fixed points to each new one, and distances of random pairs, at most 256 in all."""
    rng = random.Random(count)
    new = ["N%d" % k for k in range(count)]
    ties = [(fixed, name) for name in new for fixed in ("A", "B")]
    pairs = list(itertools.combinations(new, 2))
    ends = ties + rng.sample(pairs, min(len(pairs), 256 - len(ties)))
    return Network("distances", "plane", ["A", "B"], new, numbered("distance", ends, "1.00"))


def covering_triples(names):
    """Triples of names that have each pair of them in one triple at least: each next one has the most new pairs."""
    missing = set(itertools.combinations(names, 2))
    triples = list(itertools.combinations(names, 3))
    chosen = []
    while missing:
        best = max(triples, key=lambda triple: len(missing.intersection(itertools.combinations(triple, 2))))
        chosen.append(best)
        missing.difference_update(itertools.combinations(best, 2))
    return chosen


def dense_angles(count):
    """Angles over three new points each that have each pair in one at least, and distances from fixed points."""
    new = ["N%02d" % k for k in range(count)]
    angles = numbered("angle", covering_triples(new), "1.00")
    ties = [(fixed, name) for name in new for fixed in ("A", "B")]
    distances = numbered("distance", ties[:256 - len(angles)], "1.00")
    return Network("angles and distances", "plane", ["A", "B"], new, angles + distances)


def all_networks():
    lines = [levelling_line(count) for count in (8, 17, 33, 64)]
    levels = [random_levels(count) for count in (8, 17, 33, 64)]
    distances = [random_distances(count) for count in (4, 8, 16, 32)]
    return lines + levels + distances + [dense_angles(count) for count in (4, 8, 16, 32)]


def points_text(network, limit):
    """Heights stand at 0; points in plane stand at random in a square of 2 km."""
    rng = random.Random(len(network.new))
    lines = [POINTS_HEADER]
    for name in network.fixed + network.new:
        word = "fixed" if name in network.fixed else limit
        if network.kind == "height":
            lines.append("%s,,,0.000,,%s" % (name, word))
        else:
            x, y = rng.randint(0, 2000000), rng.randint(0, 2000000)
            lines.append("%s,%.3f,%.3f,,%s," % (name, x / 1000, y / 1000, word))
    return "\n".join(lines) + "\n"


def candidates_text(network):
    lines = [CANDIDATES_HEADER]
    for number, (kind, start, end, other, deviation) in enumerate(network.candidates):
        lines.append("c%d,%s,%s,%s,%s,%s,,5" % (number, kind, start, end, other, deviation))
    return "\n".join(lines) + "\n"


def input_text(network, limit, times, plans=None):
    """What verdict_cli reads: the sizes of both tables, no redundancy, how often; the tables; plans, or the full one."""
    points, candidates = points_text(network, limit), candidates_text(network)
    first = "%d %d 0 %d\n" % (len(points), len(candidates), times)
    return first + points + candidates + "\n".join(plans or ["1" * len(network.candidates)]) + "\n"


def filled_count(network):
    """How many entries of the normal matrix, from the diagonal on, may be other than 0, and how many there are."""
    components = 1 if network.kind == "height" else 2
    pairs = set()
    for record in network.candidates:
        touched = [name for name in record[1:4] if name in network.new]
        pairs.update(frozenset(pair) for pair in itertools.combinations(touched, 2))
    size = components * len(network.new)
    own = components * (components + 1) // 2 * len(network.new)
    return size, own + components * components * len(pairs), size * (size + 1) // 2


def processor_time(program, text):
    """The processor time of a run, in seconds, and what it prints."""
    before = resource.getrusage(resource.RUSAGE_CHILDREN)
    done = subprocess.run([program], input=text.encode(), stdout=subprocess.PIPE, check=True)
    after = resource.getrusage(resource.RUSAGE_CHILDREN)
    return after.ru_utime + after.ru_stime - before.ru_utime - before.ru_stime, done.stdout.decode()


def microseconds(program, network, limit, times):
    """Microseconds a verdict, and the verdicts that were given, each once."""
    many = [processor_time(program, input_text(network, limit, times)) for _ in range(3)]
    once = [processor_time(program, input_text(network, limit, 1)) for _ in range(3)]
    spent = min(run[0] for run in many) - min(run[0] for run in once)
    told = many[0][1].split()
    return 1e6 * spent / (times - 1) / len(told), sorted({line.split(",")[0] for line in told})


def print_table(program, times):
    print("| network | unknowns | rows | filled | 100.0 mm | 0.1 mm |\n|---|---|---|---|---|---|")
    for network in all_networks():
        size, filled, places = filled_count(network)
        cells = [microseconds(program, network, limit, times) for limit in LIMITS]
        words = " | ".join("%.1f %s" % (spent, ", ".join(told)) for spent, told in cells)
        row = (network.title, size, len(network.candidates), filled, places, words)
        print("| %s | %d | %d | %d of %d | %s |" % row, flush=True)


def instructions(program, text):
    """The instructions of a run, in millions, and the number of verdicts."""
    command = ["valgrind", "--tool=callgrind", "--callgrind-out-file=/dev/null", program]
    done = subprocess.run(command, input=text.encode(), capture_output=True, check=True)
    collected = [line for line in done.stderr.decode().splitlines() if "Collected :" in line]
    return int(collected[0].split()[-1]) / 1e6, len(done.stdout.split())


def print_instructions(program):
    print("Millions of instructions a verdict.\n\n| network | unknowns | 100.0 mm | 0.1 mm |\n|---|---|---|---|")
    for network in (levelling_line(64), random_levels(64), random_distances(32), dense_angles(16), dense_angles(32)):
        cells = []
        for limit in LIMITS:
            twice, told = instructions(program, input_text(network, limit, 2))
            once, _told = instructions(program, input_text(network, limit, 1))
            cells.append("%.4f" % ((twice - once) / told))
        print("| %s | %d | %s |" % (network.title, filled_count(network)[0], " | ".join(cells)), flush=True)


def stack_texts(network, limit):
    """Four inputs, of which the second and the fourth are how the others begin: each eighth candidate is left out and
    taken back by stacks, under all limits of points; and the same plans are judged from nothing. How many plans."""
    count = len(network.candidates)
    full = "1" * count
    without = [full[:i] + "0" + full[i + 1:] for i in range(0, count, 8)]
    walk = [full] + [plan for other in without for plan in (other, full)]
    plans = ((0, walk), (0, [full]), (1, [full] + without), (1, [full]))
    return [input_text(network, limit, times, lines) for times, lines in plans], len(without)


def print_stacks(program):
    """What a change of one candidate costs over a full matrix of 64 unknowns, in microseconds."""
    network = dense_angles(32)
    for limit in LIMITS:
        texts, plans = stack_texts(network, limit)
        runs = [[processor_time(program, text)[0] for text in texts] for _ in range(3)]
        walked, begun, anew, once = [min(run[k] for run in runs) for k in range(4)]
        changed, judged = [1e6 * spent / plans / len(network.new) for spent in (walked - begun, anew - once)]
        row = (limit, changed, judged, changed / judged)
        print("%s mm: a change and its undo %.0f, a verdict anew %.0f microseconds: %.2f" % row, flush=True)


def print_stack_instructions(program):
    """The same in millions of instructions, under the limit that is met."""
    network = dense_angles(32)
    texts, plans = stack_texts(network, LIMITS[0])
    walked, begun, anew, once = [instructions(program, text)[0] for text in texts]
    changed, judged = [spent / plans / len(network.new) for spent in (walked - begun, anew - once)]
    row = (LIMITS[0], changed, judged, changed / judged)
    print("%s mm: a change and its undo %.4f, a verdict anew %.4f million instructions: %.2f" % row)


# A step takes a product and a quotient in 128 bits for each pair of the rows below it.
FLOOR = """
#include <stdio.h>
#include <time.h>
int main(void) {
  volatile long long seed = 0x1234567890abcdefLL;
  long long a = seed, p = seed ^ 0x5555, q = seed ^ 0x3333;
  __int128 sum = 0;
  struct timespec from, to;
  clock_gettime(CLOCK_PROCESS_CPUTIME_ID, &from);
  for (long i = 0; i < 20000000; i++) {
    sum += -(__int128)(p - i) * (q + 3 * i) / (a + i);
  }
  clock_gettime(CLOCK_PROCESS_CPUTIME_ID, &to);
  double spent = (to.tv_sec - from.tv_sec) * 1e9 + (to.tv_nsec - from.tv_nsec);
  printf("%.3f %d\\n", spent / 20000000, (int)(sum & 1));
  return 0;
}
"""


def print_floor():
    with tempfile.TemporaryDirectory() as folder:
        source, program = os.path.join(folder, "floor.c"), os.path.join(folder, "floor")
        with open(source, "w", encoding="utf-8") as file:
            file.write(FLOOR)
        subprocess.run(["cc", "-O2", source, "-o", program], check=True)
        spent = min(float(subprocess.run([program], capture_output=True, check=True).stdout.split()[0]) for _ in range(5))
    print("a product and its quotient: %.2f nanoseconds" % spent)
    for size in (8, 16, 32, 64):
        pairs = (size ** 3 - size) // 6
        print("%d unknowns: %d of them, %.1f microseconds a chain" % (size, pairs, pairs * spent / 1000))


def write_inputs(folder):
    os.makedirs(folder, exist_ok=True)
    for network, limit in itertools.product(all_networks(), LIMITS):
        name = "%s-%d-%s" % (network.title.replace(", ", "-").replace(" ", "-"), filled_count(network)[0], limit)
        with open(os.path.join(folder, name), "w", encoding="utf-8") as file:
            file.write(input_text(network, limit, 1))


def main(words):
    if len(words) == 2 and words[0] == "--inputs":
        write_inputs(words[1])
    elif len(words) == 2 and words[0] == "--instructions":
        print_instructions(words[1])
    elif len(words) == 2 and words[0] == "--stacks":
        print_stacks(words[1])
    elif len(words) == 2 and words[0] == "--stack-instructions":
        print_stack_instructions(words[1])
    elif words == ["--floor"]:
        print_floor()
    elif words and len(words) <= 2:
        print_table(words[0], int(words[1]) if len(words) == 2 else 200)
    else:
        sys.exit(__doc__)


if __name__ == "__main__":
    main(sys.argv[1:])
