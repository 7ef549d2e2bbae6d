#!/usr/bin/env python3
"""Trades beside the plain ledger: swaps in pairs, swaps along paths, flash swaps, and refused lines.

Says the user time of a line of each kind over 30 pools of 12 tokens, beside that of a transfer in the same run, each less the time of the
opening lines. Run it as `bench/trades.py`, after `./exchange` has built the program.
"""
import itertools
import random
import tempfile
from pathlib import Path

from measure import best, write_lines

TOKENS = [f"T{chr(ord('A') + i)}" for i in range(12)]
PAIRS = list(itertools.combinations(TOKENS, 2))[:30]
LINES = 200_000
FAR = 2**52 - 1


def opening():
    """Four users with units of every token, and the 30 pools."""
    for user in range(4):
        for token in TOKENS:
            yield f'["deposit","user_{user}","{token}",1000000000000]'
    for a, b in PAIRS:
        yield f'["add","user_0","{a}","{b}",10000000000,10000000000,0,0,"user_0",{FAR}]'


def transfer(draw):
    return f'["transfer","user_{draw.randrange(4)}","{draw.choice(TOKENS)}","user_{draw.randrange(4)}",{draw.randrange(1, 1000)}]'


def paths(draw, hops):
    """A path of so many hops over pools that are there."""
    while True:
        path = [draw.choice(TOKENS)]
        for _ in range(hops):
            near = [b if a == path[-1] else a for a, b in PAIRS if path[-1] in (a, b)]
            near = [token for token in near if token not in path]
            if not near:
                break
            path.append(draw.choice(near))
        if len(path) == hops + 1:
            return ",".join(f'"{token}"' for token in path)


def swap_along(hops):
    return lambda draw: f'["swapin","user_{draw.randrange(4)}",[{paths(draw, hops)}],{draw.randrange(1000, 100000)},0,"user_{draw.randrange(4)}",{FAR}]'


def flash(loans):
    """Loans inside loans, each paid back by a transfer that is enough."""

    def line(draw):
        user = f"user_{draw.randrange(4)}"
        steps = ""
        for a, b in draw.sample(PAIRS, loans):
            n = draw.randrange(1000, 100000)
            pay = f'["transfer","{user}","{a}","{a}/{b}",{n + n // 300 + 1}]'
            inner = f"{steps},{pay}" if steps else pay
            steps = f'["flash","{user}","{a}/{b}",{n},0,[{inner}]]'
        return steps

    return line


def refused(draw):
    return f'["transfer","user_{draw.randrange(4)}","{draw.choice(TOKENS)}","user_{draw.randrange(4)}",{FAR}]'


def pair_swap(draw):
    """Two lines: units to the pool, and a swap that takes less than they are worth."""
    a, b = draw.choice(PAIRS)
    user, n = f"user_{draw.randrange(4)}", draw.randrange(1000, 100000)
    return f'["transfer","{user}","{a}","{a}/{b}",{n}]\n["swap","{user}","{a}/{b}",0,{n // 100},"{user}"]'


KINDS = [
    ("transfer", transfer, 1),
    ("refused transfer", refused, 1),
    ("transfer to a pool and swap (two lines)", pair_swap, 2),
    ("swapin, 1 hop", swap_along(1), 1),
    ("swapin, 2 hops", swap_along(2), 1),
    ("swapin, 3 hops", swap_along(3), 1),
    ("swapin, 1 to 3 hops, drawn alike", lambda draw: swap_along(draw.randrange(1, 4))(draw), 1),
    ("flash, 1 loan", flash(1), 1),
    ("flash, 2 loans", flash(2), 1),
    ("flash, 4 loans", flash(4), 1),
]


def main():
    with tempfile.TemporaryDirectory() as folder:
        path = Path(folder) / "input"
        write_lines(path, opening())
        start = best(path)
        for name, make, lines in KINDS:
            draw = random.Random(7)
            write_lines(path, itertools.chain(opening(), (make(draw) for _ in range(LINES // lines))))
            cost = best(path, times=3)
            nanoseconds = (cost.user - start.user) / LINES * 1e9
            print(f"{name:42} {nanoseconds:6.0f} ns of user time a line, {1e9 / nanoseconds:9.0f} lines a second, memory {cost.memory:.0f} MiB")


if __name__ == "__main__":
    main()
