"""Whether a quote answers the split of its problem, by the rules of docs/ROUTING.md.

The legs and the bound are judged by `examples/check_certificate.py`; the values are those of
`scripts/values.py`. Where a problem has more than MANY_PATHS paths, its two-way values are not
looked at; all else is, whatever its size.
"""
import importlib.util
import itertools
import json
from collections import namedtuple
from pathlib import Path

from values import Pool, equal_spread, one_way_values, spread_value, two_way_values, walked_paths, worth

CHECKER = Path(__file__).resolve().parent.parent / "examples/check_certificate.py"
MANY_PATHS = 100
UNIT = 2**20

# Pools are [name, reserve 0, reserve 1, balance 0, balance 1], prices [token, price], legs [pool,
# token that goes in, input, output]; the bound is a text.
Quote = namedtuple("Quote", "s t d pools prices legs delivered bound")


def checker():
    spec = importlib.util.spec_from_file_location("check_certificate", CHECKER)
    module = importlib.util.module_from_spec(spec)
    spec.loader.exec_module(module)
    return module


VERDICT = checker().verdict


def certificate(quote):
    return ["amm-split-certificate", 2, *quote]


def pool_of(name, r0, r1, b0, b1):
    tokens, _, fee = name.partition(":")
    return Pool(tuple(tokens.split("/")), r0, r1, int(fee or 3), (b0, b1))


def problem_pools(rows):
    return [pool_of(*row) for row in rows]


def has_route(rows, s, t, d):
    """Whether some path gives something on some sixteenths. Of two ways each is such a path."""
    pools = problem_pools(rows)
    return any(one_way_values(pools, walked_paths(pools, s, t), d))


def moves_of(tokens, prices):
    """The tokens' prices after each move that takes them: up or down by one part in 2^k, and by at least 1."""
    for ups in itertools.product((1, -1), repeat=len(tokens)):
        for k in range(1, 17):
            after = {token: prices[token] + up * max(1, prices[token] >> k) for token, up in zip(tokens, ups)}
            if all(1 <= price < 2**40 for price in after.values()):
                yield after


def helping_move(pools, parts, t, prices):
    """Prices of one token, or of the two of a pool, that lower the bound of parts that are brought to
    t by more than one part in 65536 of it, or None.
    """

    def value(places, given, prices):
        worths = sum(worth(pools[place], *(prices[token] for token in pools[place].tokens)) for place in places)
        return worths + sum(prices[token] * amount for token, amount in given)

    whole = value(range(len(pools)), parts, prices)
    now = whole // prices[t]
    for tokens in [(token,) for token in prices] + sorted({pool.tokens for pool in pools}):
        if t in tokens:
            continue
        touched = [place for place, pool in enumerate(pools) if set(tokens) & set(pool.tokens)]
        given = [part for part in parts if part[0] in tokens]
        rest = whole - value(touched, given, prices)
        for after in moves_of(tokens, prices):
            if now > (rest + value(touched, given, prices | after)) // prices[t] + now // 65536:
                return after
    return None


def greatest(values):
    return max((value for value in values if value is not None), default=0)


def fault_of(quote):
    """The first thing for which the quote is no split answer, or None."""
    finding = VERDICT(json.dumps(certificate(quote)))
    if finding != ("yes", quote.delivered, quote.bound):
        return f"its certificate is found {finding}"
    pools, prices = problem_pools(quote.pools), dict(quote.prices)
    if prices[quote.t] != UNIT:
        return f"the price of {quote.t} is not {UNIT}"
    ways = walked_paths(pools, quote.s, quote.t)
    if (one := greatest(one_way_values(pools, ways, quote.d))) > quote.delivered:
        return f"one path gives {one}"
    two = greatest(two_way_values(pools, ways, quote.d)) if len(ways) <= MANY_PATHS else 0
    if two > quote.delivered:
        return f"two paths give {two}"
    for count in (2, 4, 8):
        if (equal_spread(pools, ways, quote.d, count) or 0) > quote.delivered:
            return f"{count} equal shares give more"
    if (spread_value(pools, ways, quote.d, range(1, 17), prices[quote.s], UNIT) or 0) > quote.delivered:
        return "shares at its prices give more"
    if (after := helping_move(pools, [(quote.s, quote.d)], quote.t, prices)) is not None:
        return f"its prices are not settled: {after} is better"
    return None
