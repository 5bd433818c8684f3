#!/usr/bin/python3
"""Writes a log of many lines, to measure what `check` takes for one.

    python3 tools/big_log.py FOLDER DEPTH

FOLDER gets points.csv and candidates.csv, a new height whose limit no plan of its DEPTH levels
meets, and big.log: the whole tree that splits on each level in turn, with 2^DEPTH leaves, a quarter
of each kind (`c`, `p`, `x`, and `d` with seventeen shares). Each leaf holds, since the limit is missed
by all levels together. DEPTH is at most 30; 22 gives 247 MB.
"""
import os
import sys

POINTS = "name,x,y,z,plane,height\nA,,,100.000,,fixed\nH,,,101.000,,0.1\n"
HEADER = "name,kind,from,to,to2,sd,sdh,price\n"
DUAL = b"d 9655953 17" + b" 50 0 1 0 1" * 17 + b"\n"
LEAVES = (b"c\n", b"p 0\n", b"x 0 1 0 1\n", DUAL)


def tables(folder, depth):
    with open(os.path.join(folder, "points.csv"), "w", encoding="ascii") as file:
        file.write(POINTS)
    with open(os.path.join(folder, "candidates.csv"), "w", encoding="ascii") as file:
        file.write(HEADER)
        for k in range(depth):
            file.write(f"l{k},level,A,H,,1.00,,{k + 1}\n")


def write_log(file, depth):
    """The lines in preorder: after leaf n the next ones are the splits below the lowest node that is still open."""
    file.write(b"geoplan-log 1\n")
    splits = [b"s %d\n" % k for k in range(depth)]
    for k in range(depth):
        file.write(splits[k])
    for leaf in range(2 ** depth):
        file.write(LEAVES[leaf % 4])
        if leaf + 1 < 2 ** depth:
            done = ((leaf + 1) & -(leaf + 1)).bit_length() - 1
            for k in range(depth - done, depth):
                file.write(splits[k])


def main():
    folder, depth = sys.argv[1], int(sys.argv[2])
    os.makedirs(folder, exist_ok=True)
    tables(folder, depth)
    with open(os.path.join(folder, "big.log"), "wb", buffering=2 ** 20) as file:
        write_log(file, depth)


if __name__ == "__main__":
    main()
