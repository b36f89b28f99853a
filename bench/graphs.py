#!/usr/bin/env python3
"""Writes branch graphs as `region_bench` reads them, to standard output: the work and how often it is done, then a line of targets for each block.

    python3 bench/graphs.py WORK TIMES SHAPE N

The shapes of N blocks:

    chain        each block branches to the next one
    ladder       each block branches to the next two
    diamonds     two-armed branches, one behind the other
    selves       a chain of which each block branches to itself too
    rings        loops within each other, as many as half of the blocks
    fan          block 0 branches to all, and each of them to the last one
    complete     each block branches to each block but block 0, N at most 256
    dense        each block branches to 160 that look random (all of them, where there are no more)
    sparse       each block branches to the next one and to 7 that look random
    grid         rows of blocks, of which each branches to the right and down
    back         a chain of which each block branches to 7 earlier ones too
    entrances    rings of two blocks with two entrances, one behind the other
    exits        a loop whose second block leads to half of the blocks, which are no part of it, and to a ladder of all others
"""

import sys
from math import isqrt
from random import Random


def next_of(n, b):
    return [b + 1] if b + 1 < n else []


def chain(n):
    return [next_of(n, b) for b in range(n)]


def ladder(n):
    return [[to for to in (b + 1, b + 2) if to < n] for b in range(n)]


def diamonds(n):
    steps = {0: (1, 2), 1: (2,), 2: (1,)}
    return [[b + step for step in steps[b % 3] if b + step < n] for b in range(n)]


def selves(n):
    return [next_of(n, b) + ([b] if b else []) for b in range(n)]


def rings(n):
    # block b of the second half branches back to the head of its loop
    return [next_of(n, b) + ([n - b] if n // 2 < b else []) for b in range(n)]


def fan(n):
    return [list(range(1, n))] + [[n - 1] for _ in range(1, n - 1)] + [[]]


def complete(n):
    return [[to for to in range(1, n) if to != b] for b in range(n)]


def some(n, count, random):
    return random.sample(range(1, n), min(count, n - 1))


def dense(n):
    random = Random(n)
    return [some(n, 160, random) for _ in range(n)]


def sparse(n):
    random = Random(n)
    return [next_of(n, b) + some(n, 7, random) for b in range(n)]


def grid(n):
    wide = isqrt(n)
    return [[to for to in ([b + 1] if (b + 1) % wide else []) + [b + wide] if to < n] for b in range(n)]


def back(n):
    random = Random(n)
    return [next_of(n, b) + (some(b, 7, random) if 1 < b else []) for b in range(n)]


def entrances(n):
    # of three blocks the first branches to both others, which branch to each other, and the last one goes on
    steps = {0: (1, 2), 1: (1,), 2: (-1, 1)}
    return [[b + step for step in steps[b % 3] if b + step < n] for b in range(n)]


def exits(n):
    # the head of the loop is the last block, so that it is the last head of which is asked whether it has the blocks that are no part
    half, head = n // 2, n - 1
    ladder = [[min(b + step, head) for step in (1, 2)] for b in range(half, head)]
    return [[head], list(range(2, half + 2))] + [[] for _ in range(2, half)] + ladder + [[1]]


SHAPES = [chain, ladder, diamonds, selves, rings, fan, complete, dense, sparse, grid, back, entrances, exits]


def main(words):
    shapes = {shape.__name__: shape for shape in SHAPES}
    if len(words) != 4 or words[2] not in shapes:
        sys.exit(__doc__)
    lines = [f"{words[0]} {words[1]}"]
    for targets in shapes[words[2]](int(words[3])):
        lines.append(" ".join(str(to) for to in targets))
    print("\n".join(lines))


if __name__ == "__main__":
    main(sys.argv[1:])
