#!/usr/bin/env python3
"""The plain ledger: deposits and transfers.

Says what 200,000 lines over 40,000 users cost, how memory goes with the length of the input, and how the cost of a line goes with the number of
accounts. Run it as `bench/plain.py`, after `./exchange` has built the program. It writes its inputs to a folder under /tmp and removes them.
"""
import random
import tempfile
from pathlib import Path

from measure import best, run, write_lines


def plain_lines(users, lines, seed=1):
    """A deposit for each user, and then transfers between users drawn at random, up to the number of lines."""
    draw = random.Random(seed)
    for i in range(min(users, lines)):
        yield f'["deposit","user_{i}","ETH",1000]'
    for _ in range(users, lines):
        yield f'["transfer","user_{draw.randrange(users)}","ETH","user_{draw.randrange(users)}",1]'


def transfers(users, lines, seed=2):
    """Transfers alone, after the deposits."""
    draw = random.Random(seed)
    for _ in range(lines):
        yield f'["transfer","user_{draw.randrange(users)}","ETH","user_{draw.randrange(users)}",1]'


def stage(kind, amount):
    return lambda draw: f'["{kind}","user_{draw.randrange(40_000)}","ETH","user_{draw.randrange(40_000)}",{amount}]'


STAGES = [
    ("blank: taken from the source", lambda draw: " " * 45),
    ("no JSON: taken, and refused at its first byte", lambda draw: "x" + stage("transfer", 1)(draw)),
    ("no command: taken, read as JSON, and refused by its kind", stage("transfex", 1)),
    ("refused: taken, read, begun, refused for want of funds, rolled back", stage("transfer", 9_999_999)),
    ("accepted: all of it, two accounts changed", stage("transfer", 1)),
]


def main():
    with tempfile.TemporaryDirectory() as folder:
        path = Path(folder) / "input"

        count, size = write_lines(path, plain_lines(40_000, 200_000))
        cost = best(path)
        print(f"{count} lines, 40,000 users, {size:.1f} MiB: {cost}")
        print(f"  {cost.user / count * 1e9:.0f} ns of user time and {cost.system / count * 1e9:.0f} ns of system time a line (one write a reply)")

        print("where the time of a transfer goes: lines of the same length that come less and less far, after 40,000 deposits:")
        write_lines(path, plain_lines(40_000, 40_000))
        opening = best(path)
        for name, line in STAGES:
            draw = random.Random(3)
            with open(path, "w") as file:
                for text in plain_lines(40_000, 40_000):
                    file.write(text + "\n")
                for _ in range(200_000):
                    file.write(line(draw) + "\n")
            print(f"  {name:66} {(best(path).user - opening.user) / 200_000 * 1e9:6.0f} ns of user time a line")

        print("memory against the length of the input, 1,000 users:")
        for lines in (100_000, 1_000_000, 7_000_000):
            count, size = write_lines(path, plain_lines(1_000, lines))
            print(f"  {count:8} lines, {size:6.1f} MiB: {run(path)}")

        print("a transfer against the number of accounts (the cost of 400,000 transfers after the deposits, less that of the deposits):")
        for users in (1_000, 10_000, 100_000, 1_000_000):
            write_lines(path, plain_lines(users, users))
            opening = best(path, times=3)
            with open(path, "a") as file:
                for line in transfers(users, 400_000):
                    file.write(line + "\n")
            whole = best(path, times=3)
            print(f"  {users:8} accounts: {(whole.user - opening.user) / 400_000 * 1e9:6.0f} ns of user time a transfer, memory {whole.memory:.0f} MiB")


if __name__ == "__main__":
    main()
