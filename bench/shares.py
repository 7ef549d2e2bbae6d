#!/usr/bin/env python3
"""Where the instructions of a line go: the share of each crate, by valgrind's callgrind.

Counts the instructions of 20,000 lines of a kind, and says what share of them stands in functions of each crate. A function that the compiler has put into
its caller counts there, so the shares are rough, but they are the same on every run and on a busy machine. Run it as `bench/shares.py`, after `./exchange`
has built the program; it wants valgrind.
"""
import itertools
import os
import random
import re
import subprocess
import tempfile
from collections import Counter
from pathlib import Path

from measure import PROGRAM, write_lines
from plain import plain_lines
from trades import flash, opening, swap_along

LINES = 20_000
# A wide field is cleared by one instruction of the processor that valgrind counts once for each byte. So memory is cleared by a loop of wide stores here.
BY_LOOPS = {"GLIBC_TUNABLES": "glibc.cpu.x86_rep_stosb_threshold=1048576"}
# The first that fits names a function's group.
GROUPS = [
    ("amm_command, the short way: a plain line as a command", r"^amm_command::plain"),
    ("amm_reply, amm_cert, serde_json: the reply's text", r"^(amm_reply|amm_cert|amm_text|serde::|serde_json::(typed|ser|sink|logged|log|number)|json::write|itoa)"),
    ("serde_json: the text of a line as a value", r"^(serde_json|json|fast_float|ryu|simdutf8|core::str)"),
    ("amm_command: a value as a command", r"^amm_command"),
    ("amm_names: names read, compared, joined", r"^amm_names"),
    ("amm_state, indexmap: rows looked up and changed", r"^(amm_state|indexmap)"),
    ("amm_pair, amm_path, amm_script, amm_pool: the rules", r"^(amm_pair|amm_path|amm_script|amm_pool|amm_num|amm_factory|__udivti3)"),
    ("amm_engine, exchange: a line taken, a transaction begun and ended, the rest put into them", r"^(amm_engine|exchange|memchr|amm_io)"),
    ("memory taken and given back", r"(malloc|free|realloc|rattle_alloc|rattle_dealloc|unlink_chunk|grow_amortized)"),
    ("memory copied", r"(memcpy|memmove|memset)"),
]


def left_to_the_general_reader(lines):
    """The same lines with a blank before the last bracket, which the short way finds out at the end."""
    return (f"{line[:-1]} ]" for line in lines)


def kinds():
    draw = random.Random(7)
    return [
        ("transfer", lambda: itertools.islice(plain_lines(1000, 1000 + LINES), 1000, None), lambda: plain_lines(1000, 1000)),
        (
            "transfer, left to the general reader at its end",
            lambda: left_to_the_general_reader(itertools.islice(plain_lines(1000, 1000 + LINES), 1000, None)),
            lambda: plain_lines(1000, 1000),
        ),
        ("swapin, 2 hops", lambda: (swap_along(2)(draw) for _ in range(LINES)), opening),
        ("flash, 2 loans", lambda: (flash(2)(draw) for _ in range(LINES)), opening),
    ]


def count(path, folder):
    """The instructions of a run, by the name of the function."""
    file = Path(folder) / "callgrind"
    with open(path) as lines:
        words = ["valgrind", "--tool=callgrind", f"--callgrind-out-file={file}", str(PROGRAM), "run"]
        subprocess.run(words, stdin=lines, stdout=subprocess.DEVNULL, stderr=subprocess.DEVNULL, check=True, env={**os.environ, **BY_LOOPS})
    text = subprocess.run(["callgrind_annotate", "--threshold=100", str(file)], capture_output=True, text=True, check=True).stdout
    found = Counter()
    for number, name in re.findall(r"^\s*([\d,]+) \(.*?%\)  \S+?:(\S.*?) \[", text, re.M):
        found[name] += int(number.replace(",", ""))
    return found


def group_of(name):
    return next((group for group, names in GROUPS if re.search(names, name)), "the rest (system calls, start)")


def main():
    with tempfile.TemporaryDirectory() as folder:
        path = Path(folder) / "input"
        for kind, lines, first in kinds():
            write_lines(path, first())
            start = count(path, folder)
            write_lines(path, itertools.chain(first(), lines()))
            spent = count(path, folder)
            spent.subtract(start)
            shares = Counter()
            for name, number in spent.items():
                shares[group_of(name)] += number
            whole = sum(shares.values())
            print(f"{kind}: {whole / LINES:.0f} instructions a line")
            for group, number in shares.most_common():
                print(f"  {number / whole:4.0%}  {group}")


if __name__ == "__main__":
    main()
