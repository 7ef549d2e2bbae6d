#!/usr/bin/env python3
"""Lines of a seed: `exchange work 1 100000`.

Says what the lines cost that the program makes by itself, answers in memory and counts, and how
memory goes with their number: all of the lines and all of the replies are held. The memory of this
script, some 10 MiB, is the least that is told. Run it as `bench/work.py`, after `./exchange` has
built the program.
"""
import os

from measure import best


def main():
    for count in (1_000, 10_000, 100_000):
        cost = best(os.devnull, words=("work", "1", str(count)))
        print(f"work 1 {count}: {cost}, {cost.user / count * 1e9:.0f} ns of user time a line")


if __name__ == "__main__":
    main()
