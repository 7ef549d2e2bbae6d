#!/usr/bin/env python3
"""Lines that were chosen to be dear: names that collide, and routes over ledgers that are hard to search.

    bench/hostile.py [names | routes]      (both where nothing is given)

Run it after `./exchange` has built the program.

Names: builds three files of the same size, deposits to 40,000 users and 60,000 transfers between them. In the first the names are counted up. In
the second they meet in one place of a table that hashes as `indexmap` does of itself; in the third, of a table that has the seed 0. Says the user
time of each, least, and greatest of several runs, since each run draws a seed of its own. It wants a C compiler.

Routes: a split, a basket of eight parts and a cycle over ledgers with as many pools, paths or digits as there can be. Says the user time of each
line, which is that of the whole program with the line less that without it, the least of three runs; the greatest of several seeds. A line should
take at most LINE_SECONDS; where one takes longer the script ends with 1.
"""
import itertools
import json
import random
import subprocess
import sys
import tempfile
from pathlib import Path

from markets import MOST, Market, ordinary, pool_of, sides
from measure import run, write_lines

USERS, TRANSFERS, RUNS = 40_000, 60_000, 7
# 40,000 names have a table of 8,192 groups, so 13 bits choose the place.
PLACE_BITS = 13


def lines(names):
    draw = random.Random(5)
    for name in names:
        yield f'["deposit","{name}","ETH",1000]'
    for _ in range(TRANSFERS):
        yield f'["transfer","{draw.choice(names)}","ETH","{draw.choice(names)}",1]'


def colliding(tool, *seed):
    words = [tool, str(USERS), str(PLACE_BITS), *seed]
    return subprocess.run(words, check=True, capture_output=True, text=True).stdout.split()


def measure_names():
    with tempfile.TemporaryDirectory() as folder:
        tool, path = Path(folder) / "collide", Path(folder) / "input"
        subprocess.run(["cc", "-O2", "-o", tool, Path(__file__).parent / "collide.c"], check=True)
        files = [
            ("counted up", [f"u{i:09}" for i in range(USERS)]),
            ("one place of a table with no seed", colliding(tool)),
            ("one place of a table with the seed 0", colliding(tool, "0")),
        ]
        for kind, names in files:
            write_lines(path, lines(names))
            times = sorted(run(path).user for _ in range(RUNS))
            print(f"{kind:38} {times[0]:6.2f} to {times[-1]:.2f} s of user time for {USERS + TRANSFERS} lines")


# ---- routes

FEES = (1, 3, 10)
LINE_SECONDS, SEEDS, LINE_RUNS = 2.0, 3, 3


def filled(count, pairs_of, reserve_of):
    """Ledgers of so many tokens, with pools of these pairs and fees; each reserve is drawn so."""

    def ledger(seed):
        market = Market(seed, count)
        for a, b, fee in pairs_of(market):
            reserves = 1, 1
            while reserves[0] * reserves[1] <= 1001**2:
                reserves = reserve_of(market.random), reserve_of(market.random)
            market.pools[pool_of(a, b, fee)] = reserves
        return market

    return ledger


def drawn(market):
    """256 of all pairs, with the fee of 3."""
    pairs = list(itertools.combinations(market.tokens, 2))
    return [(a, b, 3) for a, b in market.random.sample(pairs, 256)]


def full(market):
    """Every pair with each fee."""
    return [(a, b, fee) for a, b in itertools.combinations(market.tokens, 2) for fee in FEES]


def chain(market):
    return [(a, b, fee) for a, b in zip(market.tokens, market.tokens[1:]) for fee in FEES]


def hub(seed):
    """Four tokens that have a pool with every other."""
    market = Market(seed, 64)
    for a, b in itertools.combinations(market.tokens, 2):
        if a in market.tokens[:4]:
            market.add(a, b, 3)
    return market


def disagreeing(seed):
    """Every pair of 13 tokens with each fee, near one market's prices."""
    market = Market(seed, 13, noise=0.05)
    for a, b, fee in full(market):
        market.add(a, b, fee)
    return market


def of_any_length(draw):
    return max(1, draw.getrandbits(47) >> draw.randrange(47))


LEDGERS = {
    "ordinary 64/256": ordinary(64, 256),
    "arbitrage 64/256": ordinary(64, 256, noise=0.05),
    "arbitrage 13/234": disagreeing,
    "hub 64/246": hub,
    "chain 64/189": filled(64, chain, lambda draw: draw.randrange(1, 2**47)),
    "random 64/256": filled(64, drawn, lambda draw: draw.randrange(1, 2**47)),
    "random 13/234": filled(13, full, lambda draw: draw.randrange(1, 2**46)),
    "any length 64/256": filled(64, drawn, of_any_length),
    "any length 13/234": filled(13, full, lambda draw: max(1, of_any_length(draw) >> 1)),
    "equal 13/234": filled(13, full, lambda draw: 2**30),
    "least pools 13/234": filled(13, full, lambda draw: draw.choice((1, 2**20))),
}


def busiest(market):
    """The token of the most pools."""
    ends = [token for name in market.pools for token in sides(name)]
    return max(market.tokens, key=ends.count)


def rest(market, token):
    """All that can still be deposited of a token."""
    return MOST - sum(r for name, reserves in market.pools.items() for side, r in zip(sides(name), reserves) if side == token)


def hard_lines(market):
    """What is asked, with the amounts that it sells."""
    t = busiest(market)
    tokens = sorted(market.random.sample([token for token in market.tokens if token != t], 8))
    some = {token: min(rest(market, token), market.amount(token)) for token in tokens}
    all_of_them = {token: rest(market, token) for token in tokens}
    first = tokens[0]
    yield "split", ["split", first, t, some[first]], {}
    yield "basket", ["basket", "ann", list(some.items()), t, 0, MOST], some
    yield "great basket", ["basket", "ann", list(all_of_them.items()), t, 0, MOST], all_of_them
    yield "cycle", ["cycle", "ann", t, MOST], {}


def line_seconds(market, line, given, folder):
    path, seconds = Path(folder) / "input", []
    for lines in ([], [json.dumps(line)]):
        write_lines(path, [*market.lines(given), *lines])
        seconds.append(min(run(path).user for _ in range(LINE_RUNS)))
    return seconds[1] - seconds[0]


def measure_routes():
    slow = False
    print(f"{'tokens/pools':20} {'split':>13} {'basket':>13} {'great basket':>13} {'cycle':>13}   greatest s of user time of a line")
    with tempfile.TemporaryDirectory() as folder:
        for kind, ledger in LEDGERS.items():
            greatest = {}
            for seed in range(1, SEEDS + 1):
                market = ledger(f"{kind} {seed}")
                for word, line, given in hard_lines(market):
                    greatest[word] = max(greatest.get(word, 0), line_seconds(market, line, given, folder))
            slow |= max(greatest.values()) > LINE_SECONDS
            print(f"{kind:20} " + " ".join(f"{seconds:13.3f}" for seconds in greatest.values()), flush=True)
    print(f"some line took more than {LINE_SECONDS} s" if slow else f"each line took at most {LINE_SECONDS} s")
    return slow


def main():
    parts = {"names": measure_names, "routes": measure_routes}
    failed = [parts[word]() for word in sys.argv[1:] or parts]
    return 1 if any(failed) else 0


if __name__ == "__main__":
    sys.exit(main())
