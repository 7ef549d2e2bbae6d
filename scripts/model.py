#!/usr/bin/env python3
"""The rules of the ledger once more, in unbounded whole numbers and with no thought of speed.

It was written from docs/LEDGER.md and docs/COMMANDS.md and shares nothing with the program, so that
the two can be compared: `scripts/compare` runs both on random sessions. `scripts/model.py [REPLIES]
<SESSION.jsonl` prints the replies to a session. The forms of commands stand in `forms.py`, the rules
of balances, pairs and the router in `ledger.py`.

A split, a basket or a cycle may be answered by any of many quotes. So the model takes the quote from
the replies that the program gave, REPLIES, and looks whether it is one (`splits.py`, `sales.py`). It
keeps the quote of a split, and trades by the legs of a basket or a cycle: its own reply is then the
same, or `[LINE,"wrong",WHY]`.
"""
import copy
import json
import sys
from collections import Counter
from pathlib import Path

import sales
import splits
from forms import AMOUNT, FORMS, STEPS, WORDS, Refused, Wrong
from forms import count_steps, finite, has_form, parts, path_of, refuse_if
from ledger import Ledger


def outputs(pool, token, bought):
    """The two outputs of a pool that the token goes into."""
    return (0, bought) if token == parts(pool)[0] else (bought, 0)


def nested_loans(actor, legs):
    """The flash in which the first pool lends its output, the later legs run, and its input is paid."""
    (pool, token, paid, bought), *later = legs
    inner = [nested_loans(actor, later)] if later else []
    payment = ["transfer", actor, token, pool, paid]
    return ["flash", actor, pool, *outputs(pool, token, bought), [*inner, payment]]


def moved_by(actor, legs):
    """How much of each token each holder has more after the legs, or less."""
    moved = Counter()
    for pool, token, paid, bought in legs:
        token0, token1, _ = parts(pool)
        other = token1 if token == token0 else token0
        moved[token, actor] -= paid
        moved[token, pool] += paid
        moved[other, pool] -= bought
        moved[other, actor] += bought
    return {place: n for place, n in moved.items() if n}


class Model(Ledger):
    def __init__(self, kinds=frozenset(FORMS)):
        super().__init__()
        self.kinds = kinds
        self.quotes = ()
        self.observations = ()

    # ---- quotes

    def pool_row(self, pool):
        """A pool with its reserves and balances."""
        pair = self.pairs.get(pool)
        return [pool, pair.r0, pair.r1, *self.held(pool)] if pair else None

    def problem(self):
        """All pools whose two reserves are positive, in the order of their names."""
        return [self.pool_row(pool) for pool in sorted(self.pairs) if self.pairs[pool].r0 and self.pairs[pool].r1]

    def split(self, s, t, d, told):
        refuse_if(s == t, "IDENTICAL")
        refuse_if(s not in self.tokens or t not in self.tokens, "UNKNOWN_TOKEN")
        refuse_if(d == 0, "ZERO_AMOUNT")
        refuse_if(len(self.quotes) >= 256, "QUOTE_LIMIT")
        pools = self.problem()
        refuse_if(not splits.has_route(pools, s, t, d), "NO_ROUTE")
        try:
            _, _, _, delivered, bound, prices, legs = json.loads(told)
        except (ValueError, TypeError):
            raise Wrong("no quote is told")
        quote = splits.Quote(s, t, d, pools, prices, legs, delivered, bound)
        if fault := splits.fault_of(quote):
            raise Wrong(fault)
        self.quotes += (quote,)
        return [len(self.quotes), delivered, bound, prices, legs]

    def quote(self, number):
        refuse_if(not 1 <= number <= len(self.quotes), "NO_QUOTE")
        return self.quotes[number - 1]

    def settle(self, actor, number, deadline):
        quote = self.quote(number)
        kept = {row[0]: row for row in quote.pools}
        pools = [leg[0] for leg in quote.legs]
        refuse_if(deadline < self.time, "EXPIRED")
        refuse_if(any(pool in self.pairs and self.pairs[pool].locked for pool in pools), "LOCKED")
        refuse_if(any(self.pool_row(pool) != kept[pool] for pool in pools), "STALE")
        refuse_if(self.balance(quote.s, actor) < quote.d, "FUNDS")
        self.take_legs(actor, quote.legs)
        return [quote.delivered]

    # ---- baskets and cycles

    def basket(self, actor, sold, t, least, deadline, told):
        refuse_if(deadline < self.time, "EXPIRED")
        refuse_if(any(token == t for token, _ in sold), "IDENTICAL")
        refuse_if(any(token not in self.tokens for token, _ in sold), "UNKNOWN_TOKEN")
        refuse_if(t not in self.tokens, "UNKNOWN_TOKEN")
        refuse_if(any(n == 0 for _, n in sold), "ZERO_AMOUNT")
        refuse_if(any(self.balance(token, actor) < n for token, n in sold), "FUNDS")
        problem = sales.Problem(sold, t, self.problem())
        refuse_if(not sales.has_sale(problem), "NO_ROUTE")
        if sales.finds_too_little(told):
            refuse_if(sales.greatest_value(problem) < least, "INSUFFICIENT_OUTPUT_AMOUNT")
            raise Wrong(f"at least {sales.greatest_value(problem)} has to be delivered")
        answer = sales.answer_in(told)
        if fault := sales.basket_fault(problem, answer, least) if answer else "no answer is told":
            raise Wrong(fault)
        return self.trade(actor, answer, lambda: self.take_legs(actor, answer.legs))

    def cycle(self, actor, t, deadline, told):
        refuse_if(deadline < self.time, "EXPIRED")
        refuse_if(t not in self.tokens, "UNKNOWN_TOKEN")
        problem = sales.Problem([], t, self.problem())
        refuse_if(not sales.has_cycle(problem), "NO_ROUTE")
        answer = sales.answer_in(told)
        if fault := sales.cycle_fault(problem, answer) if answer else "no answer is told":
            raise Wrong(fault)
        return self.trade(actor, answer, lambda: self.act(*nested_loans(actor, answer.legs)))

    def take_legs(self, actor, legs):
        for pool, token, paid, bought in legs:
            self.move(token, actor, pool, paid)
            self.swap(pool, *outputs(pool, token, bought), actor)

    def trade(self, actor, answer, take):
        """Takes the legs of an answer so. Nothing may be refused, and nothing else may move."""
        before = Counter(self.bal)
        try:
            take()
        except Refused as why:
            raise Wrong(f"its legs are refused by {why.word}")
        after = Counter(self.bal)
        after.subtract(before)
        if {place: n for place, n in after.items() if n} != moved_by(actor, answer.legs):
            raise Wrong("other units are moved than those of its legs")
        return [*answer]

    # ---- the price oracle

    def observe(self, pool):
        pair = self.free(pool)
        self.update(pool)
        refuse_if(len(self.observations) >= 4096, "OBSERVATION_LIMIT")
        self.observations += ((pool, self.time, pair.acc0, pair.acc1),)
        return [len(self.observations), self.time, str(pair.acc0), str(pair.acc1)]

    def observation(self, number):
        refuse_if(not 1 <= number <= len(self.observations), "NO_OBSERVATION")
        return self.observations[number - 1]

    def averages(self, i, j):
        """The average prices of token 0 and token 1 between two observations."""
        (pool, start, *before), (other, end, *after) = self.observation(i), self.observation(j)
        refuse_if(pool != other or not 0 < end - start < 2**32, "BAD_WINDOW")
        return [(now - was) % 2**128 // (end - start) for was, now in zip(before, after)]

    def consult(self, i, j, token, amount):
        averages = self.averages(i, j)
        tokens = parts(self.observation(i)[0])[:2]
        refuse_if(token not in tokens, "UNKNOWN_TOKEN")
        bought = averages[tokens.index(token)] * amount // 2**48
        refuse_if(bought > AMOUNT, "AMOUNT_LIMIT")
        return [bought]

    def window(self, pool, seconds):
        refuse_if(pool not in self.pairs, "NO_PAIR")
        refuse_if(seconds == 0, "ZERO_AMOUNT")
        own = [(number, kept[1]) for number, kept in enumerate(self.observations, 1) if kept[0] == pool]
        refuse_if(not own, "NO_OBSERVATION")
        last, end = own[-1]
        far = [number for number, time in own if time <= end - seconds]
        refuse_if(not far, "NO_OBSERVATION")
        return [far[-1], last, *map(str, self.averages(far[-1], last))]

    # ---- commands

    def act(self, kind, actor, *rest):
        """What a step of the actor gives."""
        rest = list(rest)
        fee = 3
        if kind in ("create", "add", "remove") and len(rest) == len(FORMS[kind]):
            fee = rest.pop()
        if kind in ("add", "remove", "swapin", "swapout"):
            refuse_if(rest.pop() < self.time, "EXPIRED")
        if kind == "transfer":
            self.known(rest[0])
            self.move(rest[0], actor, rest[1], rest[2])
            return []
        if kind == "create":
            return self.create(*rest, fee)
        if kind in ("mint", "burn", "swap"):
            return getattr(self, kind)(*rest)
        if kind == "skim":
            pool, to = rest
            pair, (b0, b1), (token0, token1, _) = self.free(pool), self.held(pool), parts(pool)
            sent = [b0 - pair.r0, b1 - pair.r1]
            self.move(token0, pool, to, sent[0])
            self.move(token1, pool, to, sent[1])
            return sent
        if kind == "sync":
            pair = self.free(rest[0])
            self.update(rest[0])
            return [pair.r0, pair.r1]
        if kind == "flash":
            pool, out0, out1, steps = rest
            self.lend(pool, out0, out1, actor)
            for step in steps:
                self.act(*step)
            return self.give_back(pool, out0, out1)
        if kind == "settle":
            return self.settle(actor, *rest)
        if kind in ("add", "remove"):
            return getattr(self, kind)(actor, *rest, fee)
        items, n, limit, to = rest
        path = path_of(items)
        if kind == "swapin":
            amounts = self.amounts_out(path, n)
            refuse_if(amounts[-1] < limit, "INSUFFICIENT_OUTPUT_AMOUNT")
        else:
            amounts = self.amounts_in(path, n)
            refuse_if(amounts[0] > limit, "EXCESSIVE_INPUT_AMOUNT")
        self.hops(actor, path, amounts, to)
        return [amounts]

    def perform(self, told, kind, *rest):
        if kind in STEPS:
            return self.act(kind, *rest)
        if kind in ("split", "basket", "cycle"):
            return getattr(self, kind)(*rest, told)
        if kind == "certificate":
            return [splits.certificate(self.quote(*rest))]
        if kind in ("deposit", "withdraw"):
            user, token, n = rest
            if kind == "deposit":
                refuse_if(token not in self.tokens and len(self.tokens) >= 64, "TOKEN_LIMIT")
                refuse_if(self.total(token) + n > AMOUNT, "TOTAL_LIMIT")
                if token not in self.tokens:
                    self.tokens.append(token)
                self.put(token, user, n)
            else:
                self.known(token)
                refuse_if(self.balance(token, user) < n, "FUNDS")
                self.put(token, user, -n)
            return [self.balance(token, user), self.total(token)]
        if kind == "time":
            refuse_if(rest[0] < self.time, "TIME_BACK")
            self.time = rest[0]
            return []
        if kind in ("feeto", "setter"):
            refuse_if(rest[0] != self.setter, "FORBIDDEN")
            setattr(self, "fee_to" if kind == "feeto" else "setter", rest[1])
            return []
        if kind == "observe":
            return self.observe(rest[1])
        if kind == "average":
            return [str(price) for price in self.averages(*rest)]
        if kind in ("consult", "window"):
            return getattr(self, kind)(*rest)
        if kind == "quoteout":
            return [self.amounts_out(path_of(rest[0]), rest[1])]
        if kind == "quotein":
            return [self.amounts_in(path_of(rest[0]), rest[1])]
        if kind == "pool":
            refuse_if(rest[0] not in self.pairs, "NO_PAIR")
            pair = self.pairs[rest[0]]
            return [pair.r0, pair.r1, *self.held(rest[0]), self.total(rest[0]), str(pair.k_last), pair.last, str(pair.acc0), str(pair.acc1)]
        self.known(rest[0])
        return [self.balance(*rest)] if kind == "balance" else [self.total(*rest)]

    def answer(self, line, told=""):
        """The reply to a line that is not blank, without its number, where this one was told. A refused line changes nothing."""
        quotes, observations = self.quotes, self.observations
        before = copy.deepcopy((self.bal, self.tokens, self.pairs, self.fee_to, self.setter, self.time))
        try:
            refuse_if(len(line) > 65536, "LONG_LINE")
            try:
                value = json.loads(line, parse_float=finite, parse_constant=finite)
            except ValueError:
                raise Refused("BAD_JSON")
            refuse_if(not has_form(value, self.kinds), "BAD_COMMAND")
            if value[0] == "flash":
                steps = count_steps(value, value[1], 1)
                refuse_if(steps is None or steps > 256, "BAD_COMMAND")
            return ["ok", *self.perform(told, *value)]
        except (Refused, Wrong) as why:
            self.bal, self.tokens, self.pairs, self.fee_to, self.setter, self.time = before
            self.quotes, self.observations = quotes, observations
            if isinstance(why, Wrong):
                return ["wrong", str(why)]
            return ["no", WORDS.index(why.word) + 1, why.word]


def replies(lines, told=(), kinds=frozenset(FORMS)):
    """The replies to the lines of a session, each a text without its newline, where these were told."""
    ledger, told = Model(kinds), iter(told)
    for number, line in enumerate(lines, 1):
        if line.strip(" \t\r") or len(line) > 65536:
            yield json.dumps([number, *ledger.answer(line, next(told, ""))], separators=(",", ":"))


if __name__ == "__main__":
    given = Path(sys.argv[1]).read_text().splitlines() if len(sys.argv) > 1 else ()
    for reply in replies(sys.stdin.read().removesuffix("\n").split("\n"), given):
        print(reply)
