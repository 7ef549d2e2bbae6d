"""Ledgers that seeds make: tokens with worths, and pools near the prices that the worths say."""
import itertools
import json
import random
from collections import defaultdict

MOST = 2**52 - 1


class Market:
    """Tokens, each with a worth, and pools near the prices that the worths say."""

    def __init__(self, seed, count, noise=0.002, worths=10, depth=(20, 36), fees=(1, 3, 3, 3, 10)):
        self.random = random.Random(seed)
        self.tokens = [f"T{i:02}" for i in range(count)]
        self.worth = {token: 2 ** self.random.uniform(0, worths) for token in self.tokens}
        self.noise, self.depth, self.fees = noise, depth, fees
        self.pools, self.gifts = {}, defaultdict(int)

    def add(self, a, b, fee=None, depth=None):
        """A pool of two tokens, unless there is one: each side of it is worth 2 to the depth."""
        a, b = sorted((a, b))
        fee = fee or self.random.choice(self.fees)
        name = pool_of(a, b, fee)
        value = 2 ** (depth or self.random.uniform(*self.depth))
        skew = 1 + self.random.uniform(-self.noise, self.noise)
        reserves = value / self.worth[a] * skew, value / self.worth[b]
        if a != b and name not in self.pools and len(self.pools) < 256:
            self.pools[name] = tuple(max(1001, min(2**47, round(r))) for r in reserves)

    def spread(self, pools):
        """A tree over all tokens, and pools between any two up to the number."""
        for i in range(1, len(self.tokens)):
            self.add(self.tokens[i], self.tokens[self.random.randrange(i)])
        while len(self.pools) < pools:
            self.add(*self.random.sample(self.tokens, 2))
        return self

    def rows(self):
        """The pools with reserves and balances, in the order of their names."""
        return [
            [name, *reserves, *(r + self.gifts[name, side] for side, r in enumerate(reserves))]
            for name, reserves in sorted(self.pools.items())
        ]

    def lines(self, given=()):
        """Deposits, pools and gifts; ann then has left what is given, an amount of some tokens."""
        needs = defaultdict(int, given)
        for name, _, _, b0, b1 in self.rows():
            for token, n in zip(sides(name), (b0, b1)):
                needs[token] += n
        assert max(needs.values()) <= MOST
        for token in self.tokens:
            yield json.dumps(["deposit", "ann", token, needs[token]])
        for name, r0, r1, b0, b1 in self.rows():
            yield json.dumps(["add", "ann", *sides(name), r0, r1, 0, 0, "ann", MOST, fee_of(name)])
            for token, gift in zip(sides(name), (b0 - r0, b1 - r1)):
                yield json.dumps(["transfer", "ann", token, name, gift])

    def near(self):
        """The tokens with which each token has a pool."""
        near = defaultdict(set)
        for name in self.pools:
            a, b = sides(name)
            near[a].add(b)
            near[b].add(a)
        return near

    def amount(self, token):
        """Some share of what all pools have of the token."""
        has = sum(r for name, reserves in self.pools.items() for side, r in zip(sides(name), reserves) if side == token)
        return max(1, min(MOST, int(has * 10 ** self.random.uniform(-4, -1))))

    def split(self):
        """Two tokens that a path of at most three pools joins, and an amount of the first."""
        near = self.near()
        s = self.random.choice([token for token in self.tokens if near[token]])
        t = self.random.choice(sorted(within_three(near, s) - {s}))
        return s, t, self.amount(s)

    def basket(self, count):
        """A token, and amounts of so many others from which a path of at most three pools leads to it, or of all of them."""
        near = self.near()
        t = self.random.choice([token for token in self.tokens if near[token]])
        others = sorted(within_three(near, t) - {t})
        tokens = sorted(self.random.sample(others, min(count, len(others))))
        return {token: self.amount(token) for token in tokens}, t


def within_three(near, s):
    return {c for a in near[s] for b in near[a] | {a} for c in near[b] | {b}} | near[s]


def pool_of(a, b, fee):
    a, b = sorted((a, b))
    return f"{a}/{b}" + ("" if fee == 3 else f":{fee}")


def sides(name):
    return name.split(":")[0].split("/")


def fee_of(name):
    return int(name.partition(":")[2] or 3)


def ordinary(tokens, pools, **more):
    return lambda seed: Market(seed, tokens, **more).spread(pools)


def hubs(seed):
    market = Market(seed, 50)
    for token in market.tokens[3:]:
        for hub in market.random.sample(market.tokens[:3], 2):
            market.add(token, hub)
    for a, b in ((0, 1), (0, 2), (1, 2)):
        for fee in (1, 3, 10):
            market.add(market.tokens[a], market.tokens[b], fee)
    return market


def ladder(seed):
    market = Market(seed, 40)
    for i in range(0, 40, 2):
        market.add(*market.tokens[i:i + 2])
        for rail in (0, 1):
            for fee in (3, 10) if i < 38 else ():
                market.add(market.tokens[i + rail], market.tokens[i + 2 + rail], fee)
    return market


def chain(seed):
    """All three fees at each link."""
    market = Market(seed, 24)
    for a, b in zip(market.tokens, market.tokens[1:]):
        for fee in (1, 3, 10):
            market.add(a, b, fee)
    return market


def dense(seed):
    market = Market(seed, 22)
    for i, a in enumerate(market.tokens):
        for b in market.tokens[:i]:
            market.add(a, b)
    return market


def three_fees(seed):
    market = Market(seed, 12)
    for a, b in market.random.sample(list(itertools.combinations(market.tokens, 2)), 28):
        for fee in (1, 3, 10):
            market.add(a, b, fee)
    return market


def surplus(seed):
    """Pools that hold more than their reserves, some so much that no input has room."""
    market = Market(seed, 16).spread(60)
    for name, reserves in market.pools.items():
        for side in (0, 1):
            if market.random.random() < 0.5:
                market.gifts[name, side] = market.random.choice((1, reserves[side] // 7, 2**47, 2**48))
    return market
