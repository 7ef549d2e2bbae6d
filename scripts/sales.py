"""Whether a reply answers the basket or the cycle of its problem, by the rules of docs/ROUTING.md.

The legs of a basket start with its parts; those of a cycle start with nothing, and end in the token
that they begin with. The values are those of `scripts/values.py`. Where a part has more than
MANY_PATHS paths, its two-way values are not looked at; all else is, whatever its size.
"""
import json
import re
from collections import namedtuple

from splits import MANY_PATHS, UNIT, greatest, helping_move, problem_pools
from values import bound, cycle_values, gives, is_cycle, one_way_values, sequential_value
from values import two_way_values, walked_cycles, walked_paths

TOO_LITTLE = ["no", 15, "INSUFFICIENT_OUTPUT_AMOUNT"]

# Parts are [token, amount], none for a cycle; pools are [name, reserve 0, reserve 1, balance 0,
# balance 1].
Problem = namedtuple("Problem", "parts t pools")
# Prices are [token, price], legs [pool, token that goes in, input, output]; the bound is a text.
Answer = namedtuple("Answer", "delivered bound prices legs")


def answer_in(told):
    """The answer in a reply, or None where it has none."""
    try:
        _, word, *values = json.loads(told)
        return Answer(*values) if word == "ok" else None
    except (ValueError, TypeError):
        return None


def finds_too_little(told):
    """Whether a reply refuses the least amount that was asked for."""
    try:
        return json.loads(told)[1:] == TOO_LITTLE
    except (ValueError, TypeError):
        return False


# ---- values

def ways_of_parts(problem):
    pools = problem_pools(problem.pools)
    return [walked_paths(pools, token, problem.t) for token, _ in problem.parts]


def part_values(problem, with_two_ways=True):
    """The one-way values of each part, and its two-way values where it has few paths."""
    pools = problem_pools(problem.pools)
    for (_, amount), ways in zip(problem.parts, ways_of_parts(problem)):
        yield from one_way_values(pools, ways, amount)
        if with_two_ways and len(ways) <= MANY_PATHS:
            yield from two_way_values(pools, ways, amount)


def value_in_turn(problem):
    amounts = [amount for _, amount in problem.parts]
    return sequential_value(problem_pools(problem.pools), amounts, ways_of_parts(problem))


def has_sale(problem):
    """Whether some part can be sold. Of two ways each is one way too."""
    return any(part_values(problem, with_two_ways=False))


def greatest_value(problem):
    return max(value_in_turn(problem), greatest(part_values(problem)))


def values_of_cycles(problem):
    pools = problem_pools(problem.pools)
    return cycle_values(pools, walked_cycles(pools, problem.t))


def has_cycle(problem):
    return any(values_of_cycles(problem))


# ---- legs, prices and the bound

def tokens_of(problem):
    sides = (token for pool in problem_pools(problem.pools) for token in pool.tokens)
    return sorted({problem.t, *(token for token, _ in problem.parts), *sides})


def is_whole(value, least, most):
    return type(value) is int and least <= value <= most


def is_leg(problem, leg):
    name, token, paid, bought = leg
    if name not in [row[0] for row in problem.pools] or token not in name.split(":")[0].split("/"):
        return False
    return is_whole(paid, 1, 2**52 - 1) and is_whole(bought, 1, 2**52 - 1)


def is_formed(problem, answer):
    """Whether an answer has its form: a price for each token in order, legs over the pools."""
    try:
        return (
            is_whole(answer.delivered, 0, 2**64 - 1)
            and re.fullmatch("0|[1-9][0-9]*", answer.bound) is not None
            and [token for token, _ in answer.prices] == tokens_of(problem)
            and all(is_whole(price, 1, 2**40 - 1) for _, price in answer.prices)
            and all(is_leg(problem, leg) for leg in answer.legs)
        )
    except (ValueError, TypeError, AttributeError):
        return False


def traded(problem, legs):
    """The place of each leg's pool and whether its token 0 goes in."""
    places = {row[0]: place for place, row in enumerate(problem.pools)}
    pools = problem_pools(problem.pools)
    return [(places[name], pools[places[name]].tokens[0] == token) for name, token, _, _ in legs]


def delivered_by(problem, legs):
    """What legs deliver that start with the parts, or None where they are no leg-by-leg route."""
    pools, used = problem_pools(problem.pools), set()
    held = dict.fromkeys(tokens_of(problem), 0) | dict(map(tuple, problem.parts))
    for (place, zero_in), (_, token, paid, bought) in zip(traded(problem, legs), legs):
        pool = pools[place]
        if place in used or not pool.is_admissible() or not 1 <= paid <= held[token]:
            return None
        if bought != pool.pays(zero_in, paid) or bought == 0:
            return None
        used.add(place)
        held[token] -= paid
        held[pool.tokens[1 if zero_in else 0]] += bought
    return held[problem.t]


def profit_of(problem, legs):
    """What legs bring that are those of a cycle on the first input, or None where they are none."""
    pools, hops = problem_pools(problem.pools), traded(problem, legs)
    if not is_cycle(pools, problem.t, hops):
        return None
    amounts = [legs[0][2], *(leg[3] for leg in legs)]
    if [leg[2] for leg in legs] != amounts[:-1] or amounts[-1] <= amounts[0]:
        return None
    if amounts[1:] != [gives(pools, hops[: k + 1], amounts[0]) for k in range(len(hops))]:
        return None
    return amounts[-1] - amounts[0]


def price_fault(problem, answer):
    """What is wrong with the prices and the bound, or None."""
    pools, prices = problem_pools(problem.pools), dict(map(tuple, answer.prices))
    if prices[problem.t] != UNIT:
        return f"the price of {problem.t} is not {UNIT}"
    if (due := bound(pools, problem.parts, problem.t, prices)) != int(answer.bound):
        return f"the bound of its prices is {due}"
    if answer.delivered > due:
        return "it delivers more than its bound"
    if (after := helping_move(pools, problem.parts, problem.t, prices)) is not None:
        return f"its prices are not settled: {after} is better"
    return None


# ---- answers

def basket_fault(problem, answer, least):
    """The first thing for which the answer is none to a basket with this least amount, or None."""
    if not is_formed(problem, answer):
        return "it has not the form of an answer"
    if (brought := delivered_by(problem, answer.legs)) != answer.delivered:
        return f"its legs deliver {brought}"
    if answer.delivered < least:
        return f"it delivers less than {least}"
    if (value := greatest_value(problem)) > answer.delivered:
        return f"{value} has to be delivered"
    return price_fault(problem, answer)


def cycle_fault(problem, answer):
    """The first thing for which the answer is none to a cycle, or None."""
    if not is_formed(problem, answer):
        return "it has not the form of an answer"
    if (brought := profit_of(problem, answer.legs)) != answer.delivered:
        return f"its legs bring {brought}"
    if (value := greatest(values_of_cycles(problem))) > answer.delivered:
        return f"a cycle brings {value}"
    return price_fault(problem, answer)
