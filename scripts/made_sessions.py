"""Stored sessions that a text file does not hold well, with the replies that they must have: long
ones, which loops make, and those with blank lines or none. What was worked out by hand has its
derivation beside it.
"""
import itertools

from sessions import Row, Session

# Pools whose token 0 is A, with their token 1 and what a command says of the fee.
POOLS = (
    ("A/B", "B", 3),
    ("A/B:1", "B", 1),
    ("A/B:10", "B", 10),
    ("A/C", "C", 3),
    ("A/C:1", "C", 1),
    ("A/C:10", "C", 10),
    ("A/D", "D", 3),
    ("A/D:1", "D", 1),
)


def answers_nothing_with_nothing():
    return ()


def numbers_blank_lines():
    """Blank lines have no reply, and are numbered; the last line needs no newline."""
    yield "", None
    yield "", None
    yield '["deposit","alice","ETH",5]', '[3,"ok",5,5]'


def lists_at_most_sixty_four_tokens():
    for i in range(64):
        yield f'["deposit","alice","T{i}",1]', f'[{i + 1},"ok",1,1]'
    yield '["deposit","alice","T64",1]', '[65,"no",4,"TOKEN_LIMIT"]'


def keeps_at_most_256_pairs():
    """Of 257 creations over the 24 tokens T0 to T23 the last is one too many."""
    tokens = [f"T{i}" for i in range(24)]
    for number, token in enumerate(tokens, 1):
        yield f'["deposit","alice","{token}",0]', f'[{number},"ok",0,0]'
    for number, pair in enumerate(itertools.islice(itertools.combinations(tokens, 2), 257), 25):
        line = '["create","alice","{}","{}"]'.format(*pair)
        # In the order of bytes T10 comes before T2.
        pool = "/".join(sorted(pair))
        yield line, f'[{number},"ok","{pool}"]' if number < 281 else '[281,"no",11,"PAIR_LIMIT"]'


def keeps_at_most_256_quotes():
    """Each split of 1 ETH is kept, also where it is the same as the one before. It gives
    floor(997*4000000 / (1000*1000000 + 997)) = floor(3988000000 / 1000000997) = 3.
    """
    yield '["deposit","alice","ETH",1000000]', '[1,"ok",1000000,1000000]'
    yield '["deposit","alice","USD",4000000]', '[2,"ok",4000000,4000000]'
    yield '["add","alice","ETH","USD",1000000,4000000,0,0,"alice",0]', '[3,"ok",1000000,4000000,1999000]'
    for quote in range(1, 257):
        rest = '3,"3",[["ETH",4181706],["USD",1048576]],[["ETH/USD","ETH",1,3]]]'
        yield '["split","ETH","USD",1]', f'[{quote + 3},"ok",{quote},{rest}', True, (3, 3)
    yield '["split","ETH","USD",1]', '[260,"no",31,"QUOTE_LIMIT"]'
    yield '["split","ETH","USD",0]', '[261,"no",29,"ZERO_AMOUNT"]'
    yield '["split","USD","ETH",5]', '[262,"no",31,"QUOTE_LIMIT"]'


def counts_steps_and_depth():
    """Eight loans deep and 256 steps are read, and meet a pool that is not there; more are no
    command, and neither is a step of another user.
    """
    loan, step = '["flash","alice","A/B",1,0,[', '["sync","alice","A/B"]'
    yield loan * 8 + "]]" * 8, '[1,"no",13,"NO_PAIR"]'
    yield loan * 9 + "]]" * 9, '[2,"no",2,"BAD_COMMAND"]'
    yield loan + ",".join([step] * 256) + "]]", '[3,"no",13,"NO_PAIR"]'
    yield loan + ",".join([step] * 257) + "]]", '[4,"no",2,"BAD_COMMAND"]'
    yield loan + '["sync","bob","A/B"]' + "]]", '[5,"no",2,"BAD_COMMAND"]'


def lends_eight_deep_with_256_steps():
    """Seven loans inside one, eight payments and 241 transfers of nothing: 256 steps. Each loan of
    1000 asks for at most 1011 back, since 990*1011 >= 1000*1000.
    """
    for number, token in enumerate("ABCD", 1):
        yield f'["deposit","alice","{token}",1000000000]', f'[{number},"ok",1000000000,1000000000]'
    for number, (_, token, fee) in enumerate(POOLS, 5):
        line = f'["add","alice","A","{token}",1000000,1000000,0,0,"alice",0,{fee}]'
        yield line, f'[{number},"ok",1000000,1000000,999000]'
    loans = "".join(f'["flash","alice","{pool}",1000,0,[' for pool, _, _ in POOLS)
    nothing = '["transfer","alice","A","alice",0],' * 241
    paid = ",".join(f'["transfer","alice","A","{pool}",1012]]]' for pool, _, _ in reversed(POOLS))
    yield loans + nothing + paid, '[13,"ok",1012,0,1000,0]'


def answers_eighty_thousand_lines():
    """A transaction that copied its tables would copy more than two thousand million rows here."""
    for i in range(40000):
        yield f'["deposit","u{i}","T",1]', f'[{i + 1},"ok",1,{i + 1}]'
    for i in range(40000):
        yield f'["transfer","u{i}","T","u{(i + 1) % 40000}",1]', f'[{40001 + i},"ok"]'
    yield '["balance","T","u0"]', '[80001,"ok",1]'


def session(make, **more):
    place = f"scripts/made_sessions.py {make.__name__}"
    rows = [Row(f"{place}, line {number}", *row) for number, row in enumerate(make(), 1)]
    return Session(place, rows, **more)


def made():
    return [
        session(answers_nothing_with_nothing, end=""),
        session(numbers_blank_lines, end=""),
        session(lists_at_most_sixty_four_tokens),
        session(keeps_at_most_256_pairs),
        session(keeps_at_most_256_quotes),
        session(counts_steps_and_depth),
        session(lends_eight_deep_with_256_steps),
        session(answers_eighty_thousand_lines, is_short=False),
    ]
