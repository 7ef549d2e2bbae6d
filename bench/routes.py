#!/usr/bin/env python3
"""Routes over problems that seeds make: how far what a split, a basket or a cycle brings is below its bound and below the best of all
real routes, and how long it takes.

    bench/routes.py [SEEDS [RUNS [KIND..]]]      (5 seeds, the least time of 3 runs, all kinds where nothing is given)

Run it after `./exchange` has built the program. Each problem is a session of deposits and adds, and a split, a basket or a cycle at its
end. The reply is judged by `scripts/splits.py` or `scripts/sales.py`. The time is that of the whole program with this line less that
without it.

No real route brings more than the bound at any real prices, and the best of them brings the least of these bounds, since the problem is
convex. `best_route.py` looks for it, from the printed prices on and from those that the market was made with. Pools that no leg may use,
since a balance is past the width of a reserve, are left out of it. A route may use every pool, so that the best one out of nothing brings
more than the best cycle, which uses four.

A basket is also sold part by part: a split of each part, settled at once, in the order of the parts. How much more the basket brings
than that is told beside it.
"""
import json
import statistics
import sys
import tempfile
from pathlib import Path

import markets
from best_route import least_bound
from markets import MOST, fee_of, ordinary, sides
from measure import ROOT, run, write_lines

sys.path.insert(0, str(ROOT / "scripts"))
import sales  # noqa: E402
from splits import Quote, fault_of  # noqa: E402

# Of user time, for a cycle over 64 tokens and 256 pools.
CYCLE_SECONDS = 0.3


class Task:
    """A line at the end of a session, what it brings to t, and the amounts of the tokens that are given for it."""

    def __init__(self, line, given, t):
        self.line, self.given, self.t = line, given, t

    def fault(self, market, delivered, bound, prices, legs):
        """The first thing for which these are no answer to the line, or None."""
        if self.line[0] == "split":
            return fault_of(Quote(*self.line[1:], market.rows(), prices, legs, delivered, bound))
        problem = sales.Problem(list(self.given.items()), self.t, market.rows())
        answer = sales.Answer(delivered, bound, prices, legs)
        return sales.basket_fault(problem, answer, 0) if self.given else sales.cycle_fault(problem, answer)


def split(market):
    s, t, d = market.split()
    return Task(["split", s, t, d], {s: d}, t)


def basket(count):
    def task(market):
        given, t = market.basket(count)
        return Task(["basket", "ann", list(given.items()), t, 0, MOST], given, t)

    return task


def cycle(market):
    t = market.random.choice([token for token, near in sorted(market.near().items()) if len(near) > 1])
    return Task(["cycle", "bob", t, MOST], {}, t)


SPLITS = {
    "ordinary 4/8": ordinary(4, 8),
    "ordinary 10/24": ordinary(10, 24),
    "ordinary 16/60": ordinary(16, 60),
    "ordinary 40/160": ordinary(40, 160),
    "ordinary 64/256": ordinary(64, 256),
    "hubs 50/103": markets.hubs,
    "ladder 40/96": markets.ladder,
    "chain 24/69": markets.chain,
    "dense 22/231": markets.dense,
    "three fees 12/84": markets.three_fees,
    "fine units 10/24": ordinary(10, 24, depth=(32, 46)),
    "fine units 16/60": ordinary(16, 60, depth=(32, 46)),
    "fine units 64/256": ordinary(64, 256, depth=(32, 46)),
    "arbitrage 16/60": ordinary(16, 60, noise=0.05),
    "arbitrage 64/256": ordinary(64, 256, noise=0.05),
    "tiny pools 16/60": ordinary(16, 60, worths=1, depth=(10, 13)),
    "great reserves 24/60": ordinary(24, 60, worths=1, depth=(44, 47)),
    "surplus 16/60": markets.surplus,
    "ends of the grid 16/60": ordinary(16, 60, worths=24, depth=(34, 40)),
}
BASKETS = {
    "2 parts, ordinary 4/8": (2, ordinary(4, 8)),
    "3 parts, ordinary 10/24": (3, ordinary(10, 24)),
    "5 parts, ordinary 10/24": (5, ordinary(10, 24)),
    "8 parts, ordinary 16/60": (8, ordinary(16, 60)),
    "8 parts, arbitrage 16/60": (8, ordinary(16, 60, noise=0.05)),
    "8 parts, tiny pools 16/60": (8, ordinary(16, 60, worths=1, depth=(10, 13))),
    "8 parts, great 24/60": (8, ordinary(24, 60, worths=1, depth=(44, 47))),
    "8 parts, surplus 16/60": (8, markets.surplus),
}
CYCLES = {
    "cycle, arbitrage 4/8": ordinary(4, 8, noise=0.05),
    "cycle, arbitrage 16/60": ordinary(16, 60, noise=0.05),
    "cycle, arbitrage 64/256": ordinary(64, 256, noise=0.05),
    "cycle, ordinary 64/256": ordinary(64, 256),
    "cycle, tiny pools 16/60": ordinary(16, 60, worths=1, depth=(10, 13)),
}
# Of the splits: near one market's prices in usual units, and the same in fine ones.
USUAL = list(SPLITS)[:10]
FINE = [kind for kind in SPLITS if kind.startswith("fine units")]
KINDS = {
    **{kind: (split, market) for kind, market in SPLITS.items()},
    **{kind: (basket(count), market) for kind, (count, market) in BASKETS.items()},
    **{kind: (cycle, market) for kind, market in CYCLES.items()},
}
TABLES = [("split", SPLITS), ("basket", BASKETS), ("cycle", CYCLES)]


def best_delivered(market, task, prices):
    """What the best real route delivers over the pools that a leg may use, in whole units."""
    pools = [(sides(row[0]), 1 - fee_of(row[0]) / 1000, row[1:3]) for row in market.rows() if max(row[3:]) < 2**48]
    return int(min(least_bound(pools, task.given, task.t, start) for start in (prices, market.worth)))


def measured(market, task, runs, folder):
    """The reply to the line, its milliseconds, and its seconds of user time."""
    path, told = Path(folder) / "input", Path(folder) / "output"
    costs = []
    for lines in ([], [json.dumps(task.line)]):
        write_lines(path, [*market.lines(task.given), *lines])
        ran = [run(path, output=told) for _ in range(runs)]
        costs.append((min(cost.wall for cost in ran), min(cost.user for cost in ran)))
    (wall, user), (wall_with, user_with) = costs
    return json.loads(told.read_text().splitlines()[-1]), 1000 * (wall_with - wall), user_with - user


def part_by_part(market, task, folder):
    """What the parts bring by splits, each settled before the next is asked for.

    A split that is refused keeps no quote, so each number is tried: the quotes before are stale.
    """
    path, told = Path(folder) / "input", Path(folder) / "output"
    lines = []
    for count, (token, n) in enumerate(task.given.items(), 1):
        lines += [["split", token, task.t, n], *(["settle", "ann", number, MOST] for number in range(1, count + 1))]
    write_lines(path, [*market.lines(task.given), *map(json.dumps, lines)])
    run(path, output=told)
    replies = map(json.loads, told.read_text().splitlines()[-len(lines):])
    return sum(reply[2] for line, reply in zip(lines, replies) if line[0] == "settle" and reply[1] == "ok")


def told(values, digits=0):
    """Median and greatest."""
    if not values:
        return f"{'none':>10} {'':>12}"
    return f"{statistics.median(values):10.{digits}f} {max(values):12.{digits}f}"


def head(word):
    columns = ["below the bound, ppm", "below the best, ppm", *(["above part by part, ppm"] if word == "basket" else []), "ms"]
    print(f"{word:24} {'':7}" + "".join(f"{column:>24}" for column in columns))
    print(f"{'kind, tokens/pools':24} {'routes':>7}" + f"{'median':>11} {'greatest':>12}" * len(columns))


def ppm(more, less):
    return (more / less - 1) * 1e6


class Findings:
    """What was measured of a kind."""

    def __init__(self):
        self.bound_gaps, self.gaps, self.heights, self.gains, self.times, self.user = [], [], [], [], [], []

    def add(self, kind, seed, runs):
        task_of, market_of = KINDS[kind]
        market = market_of(f"{kind} {seed}")
        task = task_of(market)
        with tempfile.TemporaryDirectory() as folder:
            reply, ms, user = measured(market, task, runs, folder)
            self.times.append(ms)
            self.user.append(user)
            if reply[1:] == ["no", 30, "NO_ROUTE"]:
                return
            delivered, bound, prices, legs = reply[3:] if task.line[0] == "split" else reply[2:]
            if fault := task.fault(market, delivered, bound, prices, legs):
                sys.exit(f"{kind}, seed {seed}: {fault}")
            if task.line[0] == "basket":
                self.gains.append(ppm(delivered, max(1, part_by_part(market, task, folder))))
        self.bound_gaps.append(ppm(int(bound), delivered))
        best = min(int(bound), best_delivered(market, task, dict(prices)))
        self.gaps.append(max(0, ppm(best, delivered)))
        self.heights.append(ppm(int(bound), best))

    def row(self, kind):
        gains = [told(self.gains)] if kind in BASKETS else []
        columns = [told(self.bound_gaps), told(self.gaps), *gains, told(self.times, 1)]
        return f"{kind:24} {len(self.gaps):3}/{len(self.times):<3} {' '.join(columns)}"


def summary(name, group):
    """How far a group of splits is below the best of all real routes, and how far their bounds are above it."""
    gaps = sorted(gap for findings in group for gap in findings.gaps)
    if gaps:
        tenth = gaps[len(gaps) * 9 // 10]
        height = max(height for findings in group for height in findings.heights)
        print(f"{name}, {len(gaps)} routes, below the best: median {statistics.median(gaps):.2f}, tenth worst {tenth:.2f}, worst {gaps[-1]:.2f} ppm")
        print(f"{'':{len(name)}}  bounds above the best: at most {height:.2f} ppm")


def main():
    words = sys.argv[1:]
    seeds, runs = (int(word) for word in [*words[:2], *("5", "3")[len(words[:2]):]])
    for word, kinds in TABLES:
        chosen = [kind for kind in words[2:] or kinds if kind in kinds]
        if chosen:
            head(word)
        found = {}
        for kind in chosen:
            findings = found[kind] = Findings()
            for seed in range(1, seeds + 1):
                findings.add(kind, seed, runs)
            print(findings.row(kind), flush=True)
            if word == "cycle" and kind.endswith("64/256"):
                print(f"{'':24} at most {max(findings.user):.3f} s of user time; {CYCLE_SECONDS} s are aimed at")
        summary("near one market's prices", [found[kind] for kind in USUAL if kind in found])
        summary("the same in fine units", [found[kind] for kind in FINE if kind in found])


if __name__ == "__main__":
    main()
