"""Compares the verdicts of stacks of factors with verdicts from scratch, over random walks.

    python3 tools/walk_verdicts.py PROGRAM [VERDICTS]    prints a row of a table for each kind of network, and a sum

PROGRAM is crates/verdict_cli/out/verdict_cli after `rt run` there. A walk begins at a random plan. Each step
changes one candidate, or takes the latest change back, so that a stack does too. The program is run twice over
the plans of a walk: once its stacks follow them, once each verdict is reckoned anew. Both texts have to be the
same, with the step and the interval of each open verdict. Walks go on until VERDICTS (100000 if it isn't told)
are compared. The networks and the walks are made from a seed, so each run has the same.
"""
import collections
import random
import subprocess
import sys

from bench_verdicts import Network, all_networks, candidates_text, points_text

# The limits of the points in mm, from those that are met soon to those that no plan meets.
LIMITS = ("0.1", "0.5", "1.0", "2.0", "5.0", "100.0")

STEPS = 16


def small_networks():
    """The networks of the table of verdicts of at most 17 new points: larger ones would take most of the time."""
    return [network for network in all_networks() if len(network.new) <= 17]


def walk(rng, count):
    """The plans of a walk over so many candidates, and how many changes are taken back on it."""
    share = rng.choice((0, 0.5, 0.9, 1))
    plan, before, back = [int(rng.random() < share) for _ in range(count)], [], 0
    plans = [plan]
    for _step in range(STEPS):
        if before and rng.random() < 0.4:
            plan = before.pop()
            back += 1
        else:
            before.append(plan)
            plan = list(plan)
            i = rng.randrange(count)
            plan[i] = 1 - plan[i]
        plans.append(plan)
    return plans, back


def verdicts(program, network, limit, redundancy, times, plans):
    """What the program prints for the plans: by stacks where `times` is 0, else each verdict reckoned anew."""
    points, candidates = points_text(network, limit), candidates_text(network)
    first = "%d %d %d %d\n" % (len(points), len(candidates), redundancy, times)
    text = first + points + candidates + "".join("".join(map(str, plan)) + "\n" for plan in plans)
    return subprocess.run([program], input=text.encode(), stdout=subprocess.PIPE, check=True).stdout.decode().split()


def thinned(rng, network):
    """A network of some of the candidates, in another order: walks over it see other orders of changes."""
    count = rng.randint(max(1, len(network.candidates) // 2), len(network.candidates))
    chosen = rng.sample(network.candidates, count)
    return Network(network.title, network.kind, network.fixed, network.new, chosen)


def compare(program, wanted):
    rng = random.Random(1)
    networks = small_networks()
    rows = collections.OrderedDict((network.title, collections.Counter()) for network in networks)
    while sum(row["verdicts"] for row in rows.values()) < wanted:
        network = thinned(rng, rng.choice(networks))
        limit, redundancy = rng.choice(LIMITS), rng.choice((0, 0, 100, 300))
        plans, back = walk(rng, len(network.candidates))
        by_stacks = verdicts(program, network, limit, redundancy, 0, plans)
        anew = verdicts(program, network, limit, redundancy, 1, plans)
        if by_stacks != anew:
            sys.exit("%s, limit %s: the verdicts differ" % (network.title, limit))
        row = rows[network.title]
        row.update({"networks": 1, "steps": STEPS, "taken back": back, "verdicts": len(anew)})
        row.update(line.split(",")[0] for line in anew)
    return rows


def main(words):
    if len(words) not in (1, 2):
        sys.exit(__doc__)
    rows = compare(words[0], int(words[1]) if len(words) == 2 else 100000)
    names = ("networks", "steps", "taken back", "verdicts", "met", "refuted", "open")
    print("| networks of | %s |\n|---|%s" % (" | ".join(names), "---|" * len(names)))
    for title, row in rows.items():
        print("| %s | %s |" % (title, " | ".join(str(row[name]) for name in names)))
    total = sum(rows.values(), collections.Counter())
    print("| all | %s |" % " | ".join(str(total[name]) for name in names))


if __name__ == "__main__":
    main(sys.argv[1:])
