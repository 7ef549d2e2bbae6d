"""The values that a routed answer is measured by, from their definitions and nothing else.

Goes through all lists of pools, all pairs of paths and all shares of small problems, one after the
other as the definitions of amm_model/specs (Paths, Values, Spreads, Baskets, Cycles, Bound,
Observations, WeightedPrices) say, with exact integers. It shares no code with the engine.
`scripts/test-values` compares with values that were worked out by hand.
"""

import itertools
from math import isqrt

WIDTH = 1 << 48  # reserves and balances that a pool can take are below this
PLACES = 1 << 48  # an average price has 48 binary places


class Pool:
    """A pool of a problem: its two tokens in byte order, its fee in thousandths, its reserves, and
    its balances, which are its reserves where none are given.
    """

    def __init__(self, tokens, r0, r1, fee=3, balances=None):
        self.tokens, self.reserves, self.fee = tokens, (r0, r1), fee
        self.balances = balances or self.reserves

    def is_admissible(self):
        return max(self.balances) < WIDTH

    def pays(self, zero_in, x):
        """What the pool pays for x of its token 0 or 1; 0 where it has no room for x."""
        rin, rout = self.reserves if zero_in else self.reserves[::-1]
        if self.balances[0 if zero_in else 1] + x >= WIDTH:
            return 0
        weight = 1000 - self.fee
        return weight * x * rout // (1000 * rin + weight * x)


def hops(pools):
    return [(place, zero_in) for place in range(len(pools)) for zero_in in (True, False)]


def token_in(pools, hop):
    return pools[hop[0]].tokens[0 if hop[1] else 1]


def token_out(pools, hop):
    return pools[hop[0]].tokens[1 if hop[1] else 0]


def leads(pools, first, path, last):
    for hop in path:
        if token_in(pools, hop) != first:
            return False
        first = token_out(pools, hop)
    return first == last


def are_different(items):
    return len(set(items)) == len(items)


def is_path(pools, source, target, path):
    tokens = [source] + [token_out(pools, hop) for hop in path]
    return (
        all(pools[place].is_admissible() for place, _ in path)
        and are_different([place for place, _ in path])
        and leads(pools, source, path, target)
        and are_different(tokens)
    )


def paths(pools, source, target):
    """All paths of one to three pools, in the order of their places."""
    found = [
        path
        for length in (1, 2, 3)
        for path in itertools.product(hops(pools), repeat=length)
        if is_path(pools, source, target, path)
    ]
    return sorted(found, key=places)


def one_more(pools, chains, start):
    """The chains from start, each with one more hop over a pool of the token that it came to."""
    near = {}
    for place, pool in enumerate(pools):
        for token in pool.tokens if pool.is_admissible() else ():
            near.setdefault(token, []).append((place, pool.tokens[0] == token))
    for chain in chains:
        last = token_out(pools, chain[-1]) if chain else start
        yield from ((*chain, hop) for hop in near.get(last, ()) if hop[0] not in places(chain))


def walked(pools, start, target, most, met):
    """All chains from start to target of at most so many hops, in which no token comes twice nor
    was met. A longer one goes on from one that has not come to the target.
    """
    found, begun = [], [()]
    for _ in range(most):
        longer = [
            chain
            for chain in one_more(pools, begun, start)
            if are_different([*met, *(token_out(pools, hop) for hop in chain)])
        ]
        found += [chain for chain in longer if token_out(pools, chain[-1]) == target]
        begun = [chain for chain in longer if token_out(pools, chain[-1]) != target]
    return found


def walked_paths(pools, source, target):
    """The same paths, sooner."""
    return sorted(walked(pools, source, target, 3, [source]), key=places)


def places(path):
    return [place for place, _ in path]


def are_apart(path, used):
    return not set(places(path)) & set(used)


def gives(pools, path, x):
    for place, zero_in in path:
        x = pools[place].pays(zero_in, x)
    return x


def one_way_values(pools, ways, d):
    for path in ways:
        for k in range(1, 17):
            if value := gives(pools, path, d * k // 16):
                yield value


def two_way_values(pools, ways, d):
    for first, second in itertools.product(ways, ways):
        for k in range(1, 16):
            part = d * k // 16
            if are_apart(first, places(second)):
                a, b = gives(pools, first, part), gives(pools, second, d - part)
                if a and b:
                    yield a + b


def spread_value(pools, ways, d, sizes, price_in, price_out):
    """The sum of what the shares give, taken one after the other by their gain; None where none is."""
    left, used, total, taken = 16, [], 0, False
    while True:
        best = None
        for path in ways:
            for k in sizes:
                gain = price_out * gives(pools, path, d * k // 16) - price_in * (d * k // 16)
                if k <= left and are_apart(path, used) and gain > 0:
                    key = (-gain, places(path), k)
                    best = min(best, (key, path, k), key=lambda e: e[0]) if best else (key, path, k)
        if best is None:
            return total if taken else None
        _, path, k = best
        left, used, taken = left - k, used + places(path), True
        total += gives(pools, path, d * k // 16)


def equal_spread(pools, ways, d, count):
    return spread_value(pools, ways, d, [16 // count], 0, 1)


def sequential_value(pools, amounts, ways):
    """The amounts of parts one after the other, where these are the ways of each."""
    used, total = [], 0
    for amount, own in zip(amounts, ways):
        free = [path for path in own if are_apart(path, used) and gives(pools, path, amount)]
        if free:
            best = min(free, key=lambda path: (-gives(pools, path, amount), places(path)))
            used, total = used + places(best), total + gives(pools, best, amount)
    return total


def is_cycle(pools, target, cycle):
    return (
        2 <= len(cycle) <= 4
        and all(pools[place].is_admissible() for place, _ in cycle)
        and are_different(places(cycle))
        and leads(pools, target, cycle, target)
        and are_different([token_out(pools, hop) for hop in cycle])
    )


def cycles(pools, target):
    """All cycles from a token back to it, the shorter ones first, in the order of their places."""
    return [
        cycle
        for length in (2, 3, 4)
        for cycle in itertools.product(hops(pools), repeat=length)
        if is_cycle(pools, target, cycle)
    ]


def walked_cycles(pools, target):
    """The same cycles, sooner."""
    return walked(pools, target, target, 4, [])


def cycle_values(pools, ways):
    for cycle in ways:
        for e in range(52):
            if gives(pools, cycle, 2**e) > 2**e:
                yield gives(pools, cycle, 2**e) - 2**e


def worth(pool, p0, p1):
    (r0, r1), weight = pool.reserves, 1000 - pool.fee
    for a, b in ((1000 * p0 * r0, weight * p1 * r1), (1000 * p1 * r1, weight * p0 * r0)):
        if b > a:
            mean = isqrt(a << 30) * isqrt(b << 30) >> 29
            return (a + b - mean) // weight
    return 0


def bound(pools, parts, target, prices):
    value = sum(prices[token] * amount for token, amount in parts)
    value += sum(worth(pool, *(prices[token] for token in pool.tokens)) for pool in pools)
    return value // prices[target]


def spot_price(units, per):
    return units * PLACES // per if units and per else 0


def price0(r0, r1):
    return spot_price(r1, r0)


def price1(r0, r1):
    return spot_price(r0, r1)


def weighted_sum(stretch, price):
    """Each price by its seconds, of a list of the time and the reserves that each line leaves."""
    return sum((b[0] - a[0]) * price(*a[1:]) for a, b in zip(stretch, stretch[1:]))


def weighted_average(stretch, price):
    return weighted_sum(stretch, price) // (stretch[-1][0] - stretch[0][0])


def reading(stretch, price):
    """An accumulator that starts at 0 and is updated at each line: times modulo 2^32."""
    acc = 0
    for a, b in zip(stretch, stretch[1:]):
        elapsed = (b[0] % 2**32 + 2**32 - a[0] % 2**32) % 2**32
        acc = (acc + price(*a[1:]) * elapsed) % 2**128
    return acc


def at_average(average, amount):
    return average * amount // PLACES
