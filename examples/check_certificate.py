#!/usr/bin/env python3
"""Checks the certificate on standard input by docs/CERTIFICATES.md, with whole numbers alone.
Writes one line: a yes with its two numbers, or the first thing that is not so. Status 0 is a yes."""
import json, re, sys
from math import isqrt

TOKEN = "[A-Z][A-Z0-9]{0,11}"
ROOM = 2**48 - 1  # the most of a token that a pool may hold when it trades

def need(so):
    if not so:
        raise ValueError

def whole(value, least, most):
    need(type(value) is int and least <= value <= most)
    return value

def read(text):
    """The parts of a certificate; an error where the text is none."""
    numbers = lambda digits: int(digits) if digits[0] != "-" else None
    title, version, s, t, d, pools, prices, legs, delivered, bound = json.loads(text, parse_int=numbers)
    need(title == "amm-split-certificate" and whole(version, 1, 2) and s != t and whole(d, 1, 2**52 - 1))
    need(all(re.fullmatch(TOKEN, token) for token in (s, t)))
    whole(delivered, 0, 2**64 - 1)
    need(all(type(part) is list for part in (pools, prices, legs)) and len(pools) <= 256 >= len(legs))
    table = {}  # of each pool: its tokens, 1000 less its fee, reserves, balances
    for name, r0, r1, b0, b1 in pools:
        a, b, fee = re.fullmatch(f"({TOKEN})/({TOKEN})(?::(1|10))?", name).groups()
        need(a < b and (version == 2 or not fee) and all(before < name for before in table))
        reserves = whole(r0, 1, ROOM), whole(r1, 1, ROOM)
        table[name] = (a, b), 1000 - int(fee or 3), reserves, (whole(b0, r0, 2**52 - 1), whole(b1, r1, 2**52 - 1))
    tokens = sorted({s, t}.union(*(pool[0] for pool in table.values())))
    need([token for token, _ in prices] == tokens)
    for name, token, x, y in legs:
        need(token in table[name][0])
        whole(x, 0, 2**52 - 1), whole(y, 0, 2**52 - 1)
    need(re.fullmatch("0|[1-9][0-9]*", bound) and int(bound) < 2**128)
    return s, t, d, table, {token: whole(p, 1, 2**40 - 1) for token, p in prices}, legs, delivered, int(bound)

def worth(tokens, g, reserves, prices):
    """The most, at the prices, that a trade with a pool can bring above what it costs."""
    v0, v1 = (prices[token] * reserve for token, reserve in zip(tokens, reserves))
    low, high = 1000 * min(v0, v1), g * max(v0, v1)
    return (low + high - (isqrt(low << 30) * isqrt(high << 30) >> 29)) // g if high > low else 0

def verdict(text):
    try:
        s, t, d, table, prices, legs, delivered, bound = read(text)
    except (ValueError, TypeError, AttributeError, KeyError, RecursionError):
        return "no", "BAD_CERT"
    held = dict.fromkeys(prices, 0) | {s: d}
    fresh = dict(table)  # the pools that no leg has used yet
    for name, token, x, y in legs:
        if name not in fresh:
            return "no", "BAD_ROUTE"
        tokens, g, reserves, balances = fresh.pop(name)
        i = tokens.index(token)
        if not 0 < x <= held[token] or max(balances) > ROOM or balances[i] + x > ROOM:
            return "no", "BAD_ROUTE"
        if y != g * x * reserves[1 - i] // (1000 * reserves[i] + g * x) or y == 0:
            return "no", "BAD_ROUTE"
        held[token] -= x
        held[tokens[1 - i]] += y
    if held[t] != delivered:
        return "no", "BAD_DELIVERED"
    worths = sum(worth(tokens, g, reserves, prices) for tokens, g, reserves, _ in table.values())
    return ("yes", delivered, str(bound)) if (prices[s] * d + worths) // prices[t] == bound else ("no", "BAD_BOUND")

if __name__ == "__main__":
    answer = verdict(sys.stdin.buffer.read().decode("utf-8", "replace"))
    print(json.dumps(answer, separators=(",", ":")))
    sys.exit(answer[0] == "no")
