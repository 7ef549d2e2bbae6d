"""The forms of names, numbers and commands, and the words of refusals, by docs/COMMANDS.md."""
import re
from math import isfinite

AMOUNT = 2**52 - 1
RESERVE = 2**48 - 1
FEES = (1, 3, 10)
WORDS = """BAD_JSON BAD_COMMAND LONG_LINE TOKEN_LIMIT TOTAL_LIMIT UNKNOWN_TOKEN FUNDS TIME_BACK IDENTICAL PAIR_EXISTS PAIR_LIMIT FORBIDDEN NO_PAIR LOCKED
INSUFFICIENT_OUTPUT_AMOUNT INSUFFICIENT_LIQUIDITY INVALID_TO INSUFFICIENT_INPUT_AMOUNT K OVERFLOW INSUFFICIENT_LIQUIDITY_MINTED INSUFFICIENT_LIQUIDITY_BURNED
EXPIRED INSUFFICIENT_A_AMOUNT INSUFFICIENT_B_AMOUNT INSUFFICIENT_AMOUNT EXCESSIVE_INPUT_AMOUNT AMOUNT_LIMIT ZERO_AMOUNT NO_ROUTE QUOTE_LIMIT NO_QUOTE
STALE OBSERVATION_LIMIT NO_OBSERVATION BAD_WINDOW""".split()


class Refused(Exception):
    """A command is refused by the word."""

    def __init__(self, word):
        self.word = word


class Wrong(Exception):
    """The reply that was told is none that the line may have."""


def refuse_if(test, word):
    if test:
        raise Refused(word)


def finite(text):
    """A number of a JSON text that is no whole number. One that no double holds makes the whole text no JSON."""
    number = float(text)
    if not isfinite(number):
        raise ValueError(text)
    return number


def is_user(text):
    return isinstance(text, str) and re.fullmatch(r"[a-z][a-z0-9_]{0,31}", text) is not None


def is_token(text):
    return isinstance(text, str) and re.fullmatch(r"[A-Z][A-Z0-9]{0,11}", text) is not None


def is_pool(text):
    if not isinstance(text, str):
        return False
    found = re.fullmatch(r"([A-Z][A-Z0-9]{0,11})/([A-Z][A-Z0-9]{0,11})(:1|:10)?", text)
    return found is not None and found[1] < found[2]


def is_asset(text):
    return is_token(text) or is_pool(text)


def is_holder(text):
    return text == "0" or is_user(text) or is_asset(text)


def is_amount(n):
    return type(n) is int and 0 <= n <= AMOUNT


def is_fee(n):
    return type(n) is int and n in FEES


def pool_of(a, b, fee):
    """The name of the pool of two tokens."""
    refuse_if(a == b, "IDENTICAL")
    return f"{min(a, b)}/{max(a, b)}" + ("" if fee == 3 else f":{fee}")


def parts(pool):
    """Token 0, token 1 and the fee of a pool."""
    tokens, _, fee = pool.partition(":")
    token0, token1 = tokens.split("/")
    return token0, token1, int(fee or 3)


def path_of(items):
    """The tokens and fees of a path, or None."""
    if not isinstance(items, list) or not items or not is_token(items[0]):
        return None
    tokens, fees, fee = [items[0]], [], None
    for item in items[1:]:
        if is_token(item):
            tokens.append(item)
            fees.append(3 if fee is None else fee)
            fee = None
        elif is_fee(item) and fee is None:
            fee = item
        else:
            return None
    return (tokens, fees) if fee is None and 2 <= len(tokens) <= 8 else None


def is_basket(items):
    """Whether a basket can be made of these: 1 to 8 tokens in rising order, each with an amount."""
    if not isinstance(items, list) or not 1 <= len(items) <= 8:
        return False
    if not all(isinstance(item, list) and len(item) == 2 for item in items):
        return False
    if not all(is_token(token) and is_amount(n) for token, n in items):
        return False
    return all(first[0] < second[0] for first, second in zip(items, items[1:]))


FORMS = {
    "deposit": (is_user, is_token, is_amount),
    "withdraw": (is_user, is_token, is_amount),
    "transfer": (is_user, is_asset, is_holder, is_amount),
    "time": (is_amount,),
    "create": (is_user, is_token, is_token),
    "feeto": (is_user, is_holder),
    "setter": (is_user, is_user),
    "mint": (is_user, is_pool, is_holder),
    "burn": (is_user, is_pool, is_holder),
    "swap": (is_user, is_pool, is_amount, is_amount, is_holder),
    "skim": (is_user, is_pool, is_holder),
    "sync": (is_user, is_pool),
    "flash": (is_user, is_pool, is_amount, is_amount, lambda steps: isinstance(steps, list)),
    "add": (is_user, is_token, is_token, is_amount, is_amount, is_amount, is_amount, is_holder, is_amount),
    "remove": (is_user, is_token, is_token, is_amount, is_amount, is_amount, is_holder, is_amount),
    "swapin": (is_user, path_of, is_amount, is_amount, is_holder, is_amount),
    "swapout": (is_user, path_of, is_amount, is_amount, is_holder, is_amount),
    "split": (is_token, is_token, is_amount),
    "settle": (is_user, is_amount, is_amount),
    "certificate": (is_amount,),
    "quoteout": (path_of, is_amount),
    "quotein": (path_of, is_amount),
    "pool": (is_pool,),
    "balance": (is_asset, is_holder),
    "total": (is_asset,),
    "observe": (is_user, is_pool),
    "average": (is_amount, is_amount),
    "consult": (is_amount, is_amount, is_token, is_amount),
    "window": (is_pool, is_amount),
    "basket": (is_user, is_basket, is_token, is_amount, is_amount),
    "cycle": (is_user, is_token, is_amount),
}
STEPS = {"transfer", "create", "mint", "burn", "swap", "skim", "sync", "flash", "add", "remove", "swapin", "swapout", "settle"}


def has_form(value, kinds):
    """Whether a value is a command of these kinds, its steps and their actors aside."""
    if not isinstance(value, list) or not value or not isinstance(value[0], str) or value[0] not in kinds:
        return False
    form = FORMS[value[0]]
    given = value[1:]
    if value[0] in ("create", "add", "remove") and len(given) == len(form) + 1:
        if not is_fee(given[-1]):
            return False
        given = given[:-1]
    return len(given) == len(form) and all(test(item) for test, item in zip(form, given))


def count_steps(value, actor, depth):
    """How many steps a flash has over all levels, or None where one of them is no step of the actor."""
    if depth > 8:
        return None
    total = 0
    for step in value[5]:
        if not has_form(step, STEPS) or step[1] != actor:
            return None
        inner = count_steps(step, actor, depth + 1) if step[0] == "flash" else 0
        if inner is None:
            return None
        total += 1 + inner
    return total
