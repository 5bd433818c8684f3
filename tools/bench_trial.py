#!/usr/bin/python3
"""Measures what a script of `trial` costs, with the built program.

    python3 tools/bench_trial.py PROGRAM [LINES]

It prints a row of a table for each of two networks, made from a seed: 17 heights with 64 levels, and
64 heights with 256 levels, each with a redundancy of 0.200 besides. A script takes 32 candidates,
takes them back and so on, with a `show` in each hundred lines; LINES is 1000 if it isn't told. The
seconds are processor time, the least of three runs; `start` is a script of one line.
"""
import os
import random
import resource
import subprocess
import sys
import tempfile

POINTS_HEADER = "name,x,y,z,plane,height"
CANDIDATES_HEADER = "name,kind,from,to,to2,sd,sdh,price"


def tables(heights, levels):
    """A line from a fixed height over all others, and levels of random pairs."""
    rng = random.Random(heights)
    names = ["A"] + [f"N{k}" for k in range(heights)]
    points = [POINTS_HEADER, "A,,,100.000,,fixed"] + [f"{name},,,100.000,,5.0" for name in names[1:]]
    ends = list(zip(names, names[1:]))
    while len(ends) < levels:
        pair = tuple(sorted(rng.sample(names, 2)))
        if pair not in ends:
            ends.append(pair)
    candidates = [CANDIDATES_HEADER]
    candidates += [f"l{k},level,{a},{b},,0.50,,{k + 1}" for k, (a, b) in enumerate(ends)]
    return "\n".join(points) + "\n", "\n".join(candidates) + "\n"


def script(levels, lines):
    """Thirty-two takes, thirty-two undos, and so on, with a show in each hundred lines."""
    rng = random.Random(lines)
    out, held = [], []
    while len(out) < lines:
        if len(out) % 100 == 99:
            out.append("show")
        elif len(out) % 64 < 32:
            free = [k for k in range(levels) if k not in held]
            held.append(rng.choice(free))
            out.append(f"take l{held[-1]}")
        else:
            if held:
                held.pop()
            out.append("undo")
    return "\n".join(out) + "\n"


def seconds(words):
    before = resource.getrusage(resource.RUSAGE_CHILDREN)
    subprocess.run(words, stdout=subprocess.DEVNULL, check=True)
    after = resource.getrusage(resource.RUSAGE_CHILDREN)
    return after.ru_utime + after.ru_stime - before.ru_utime - before.ru_stime


def least(program, folder, text):
    with open(os.path.join(folder, "script"), "w", encoding="ascii") as file:
        file.write(text)
    words = [program, "trial"] + [os.path.join(folder, name) for name in ("points.csv", "candidates.csv")]
    words += ["200", os.path.join(folder, "script")]
    return min(seconds(words) for _ in range(3))


def main():
    program = os.path.abspath(sys.argv[1])
    lines = int(sys.argv[2]) if len(sys.argv) > 2 else 1000
    print("| unknowns | candidates | limits | start | a script of %d lines |" % lines)
    print("|---|---|---|---|---|")
    for heights, levels in ((17, 64), (64, 256)):
        with tempfile.TemporaryDirectory() as folder:
            points, candidates = tables(heights, levels)
            for name, text in (("points.csv", points), ("candidates.csv", candidates)):
                with open(os.path.join(folder, name), "w", encoding="ascii") as file:
                    file.write(text)
            start = least(program, folder, "undo\n")
            whole = least(program, folder, script(levels, lines))
            print("| %d | %d | %d | %.3f | %.3f |" % (heights, levels, heights + levels, start, whole))


if __name__ == "__main__":
    main()
