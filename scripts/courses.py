"""What a replay keeps: lines with what is wanted of their replies, pairs, and names."""

from collections import Counter
from dataclasses import dataclass, field
from math import isqrt
from typing import Any, Iterable, Iterator, Optional

from eventlog import ZERO, Event, Unfit

RESERVE, AMOUNT = 2**48 - 1, 2**52 - 1
LOCKED_SHARES = 1000
# Brings what no address of the logs is known to have brought, and has the shares of an opening.
KEEPER = "replay"


@dataclass(frozen=True)
class Step:
    """A line for the ledger, and what has to follow "ok" in its reply: None stands for anything."""

    line: list
    event: Optional[Event] = None
    wanted: tuple = ()


@dataclass
class Act:
    """Steps at the place of a log. They are dropped where another act does the same."""

    place: int
    steps: list[Step]
    dropped: bool = False


@dataclass
class Output:
    """A transfer out of a pair of a token whose logs are given, and its arrival at another pair."""

    place: int
    event: Event
    token: str
    to: str
    n: int
    arrival: Optional[Act]


@dataclass
class Course:
    """A pair, and what its logs have told so far, in the order of its name in the ledger.

    `last` is the place of the last log that changed its reserves or took units from it.
    """

    address: str
    pool: str
    turned: bool  # token 0 of the contract is token 1 of the pool
    begun: bool = False
    supply: Optional[int] = None
    opened: bool = False  # set up from a Sync: holders have shares from before
    product_unknown: bool = False
    reserves: tuple = (0, 0)
    outputs: list[Output] = field(default_factory=list)
    minted: list[tuple[str, int, Event]] = field(default_factory=list)
    burned: list[tuple[int, Event]] = field(default_factory=list)
    shares: Counter = field(default_factory=Counter)
    last: int = -1

    @property
    def tokens(self) -> tuple:
        return tuple(self.pool.split("/"))

    def ordered(self, numbers: tuple) -> tuple:
        """Two numbers of an event, in the order of the pool's name."""
        return numbers[::-1] if self.turned else numbers

    def lend_shares(self, holder: str, n: int) -> list[Step]:
        """What a holder had before the opening is told by what he gives."""
        lack = n - self.shares[holder]
        if not self.opened or lack <= 0:
            return []
        self.shares[holder] += lack
        self.shares[KEEPER] -= lack
        return [Step(["transfer", KEEPER, self.pool, holder, lack])]

    def need_supply(self, event: Event) -> None:
        if self.supply is None:
            raise Unfit(
                f"{event}: the log of {self.pool} begins after its first Mint, and how many"
                f" shares there were is in no log: give --supply {self.address}=N"
            )

    def need_product(self, event: Event) -> None:
        if self.product_unknown:
            raise Unfit(
                f"{event}: the log of {self.pool} begins after its first Mint, with the protocol's"
                " fee on, and the product that the fee is reckoned from (kLast) is in no log"
            )


class Names:
    """What the addresses of the logs are called in the ledger."""

    def __init__(self, pools: dict[str, str], tokens: dict[str, str]):
        self.pools, self.tokens, self.users = pools, tokens, {}

    def holder(self, address: str) -> str:
        if address == ZERO:
            return "0"
        return self.pools.get(address) or self.tokens.get(address) or self.user(address)

    def user(self, address: str) -> str:
        """An x and the first 31 digits, which is as long as a name may be."""
        name = "x" + address[2:33]
        other = self.users.setdefault(name, address)
        if other != address:
            raise Unfit(f"{address} and {other} begin alike, and would be one user")
        return name

    def actor(self, address: str) -> str:
        """Who acts for an address: only users act in the ledger."""
        known = address == ZERO or address in self.pools or address in self.tokens
        return KEEPER if known else self.user(address)


def fits(n: int, limit: int, event: Event, what: str) -> int:
    """A number for which the ledger has room."""
    if n > limit:
        raise Unfit(f"{event}: does not fit the ledger: {what} is {n}, and the limit is {limit}")
    return n


def bring(pool: str, token: str, n: int, user: str, event: Optional[Event] = None) -> list[Step]:
    """Units come to a pool: they are issued to the user who sends them."""
    return [
        Step(["deposit", user, token, n], event),
        Step(["transfer", user, token, pool, n], event),
    ]


def retire(course: Course, amounts: Iterable[Any], holder: str) -> list[Step]:
    """What a user got from a pool leaves the ledger."""
    is_user = holder[0].islower()
    paid = zip(course.tokens, amounts)
    return [Step(["withdraw", holder, token, n]) for token, n in paid if n and is_user]


def opening(course: Course, reserves: tuple, supply: int) -> Iterator[Step]:
    """Lines that give a pool its reserves and its supply.

    The first mint is of parts of the reserves whose product has the supply as its root: the smaller
    part is at most the supply, so rounding the other one up does not change the root. The rest of
    the reserves is then sent and synced.
    """
    small = min(*reserves, supply)
    great = -(-(supply**2) // small)
    parts = (small, great) if reserves[0] <= reserves[1] else (great, small)
    rests = tuple(reserve - part for reserve, part in zip(reserves, parts))
    for amounts, line in (
        (parts, ["mint", KEEPER, course.pool, KEEPER]),
        (rests, ["sync", KEEPER, course.pool]),
    ):
        for token, n in zip(course.tokens, amounts):
            yield from bring(course.pool, token, n, KEEPER)
        yield Step(line)
    yield Step(["pool", course.pool], None, (*reserves, *reserves, supply))


def opened_supply(course: Course, told: Optional[int], reserves: tuple, sync: Event) -> int:
    """The supply with which a pool is set up; where none is told, any will do for its swaps."""
    root = isqrt(reserves[0] * reserves[1])
    if told is not None:
        made, ended = sum(one[1] for one in course.minted), sum(one[0] for one in course.burned)
        course.supply = told + made - ended
    supply = root if course.supply is None else course.supply
    if not LOCKED_SHARES < supply <= root:
        raise Unfit(
            f"{sync}: {course.pool} cannot be set up with {supply} shares, by the reserves"
            f" {reserves[0]} and {reserves[1]}: it takes more than {LOCKED_SHARES}, at most {root}"
        )
    return supply
