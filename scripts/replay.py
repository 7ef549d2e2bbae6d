"""The lines of the ledger that do what event logs say, and what their replies have to be.

A pair's own logs tell its reserves, amounts and shares. What came to a pair, and when, stands in
the logs of its tokens. Of a token whose logs are given (it is *seen*) every arrival is a line at
its place, and what leaves a pair by no swap or burn was skimmed; of another token each input is
brought just before it is counted. Units of tokens are issued when they come to a pair and retired
when they leave it for a user, so that the ledger has only what lies in pairs.
"""

from collections import Counter
from typing import Iterator, Optional

from courses import AMOUNT, KEEPER, LOCKED_SHARES, RESERVE, Act, Course, Names, Output, Step
from courses import bring, fits, opened_supply, opening, retire
from eventlog import ZERO, Event, Unfit

ENDS = ("Mint", "Burn", "Swap")  # the events that a pair writes right behind its Sync


class Replay:
    """Follows events in their order and keeps the acts of the ledger that they ask for."""

    def __init__(
        self,
        events: list[Event],
        pairs: dict[str, tuple[str, str]],
        tokens: dict[str, str],
        supplies: dict[str, int],
        fee: Optional[tuple[str, int]] = None,
    ):
        """`pairs` are the tokens 0 and 1 of addresses, `fee` a receiver and its first block."""
        self.events, self.supplies, self.fee, self.fee_on = events, supplies, fee, False
        self.courses = {
            address: Course(address, "/".join(sorted(two)), two[0] > two[1])
            for address, two in pairs.items()
        }
        pools = {address: course.pool for address, course in self.courses.items()}
        self.names, self.seen = Names(pools, tokens), set(tokens.values())
        self.acts: list[Act] = []
        self.compared: Counter = Counter()
        self.passed: Counter = Counter()
        self.openings: list[str] = []

    # ---- all events

    def steps(self) -> list[Step]:
        """All lines with what they are compared with."""
        for course in self.courses.values():
            course.begun = self.has_first_mint(course.address)
            course.supply = 0 if course.begun else None
        for place, event in enumerate(self.events):
            self.turn_fee_on(place, event)
            if event.source in self.courses:
                self.of_pair(place, event, self.courses[event.source])
            elif event.source in self.names.tokens:
                self.of_token(place, event)
            else:
                raise Unfit(f"{event}: {event.source} is not named by --pair or --token")
        for course in self.courses.values():
            self.end(course)
        self.acts.sort(key=lambda act: act.place)
        acts = (step for act in self.acts if not act.dropped for step in act.steps)
        return [*self.creation(), *acts]

    def creation(self) -> Iterator[Step]:
        tokens = sorted({token for course in self.courses.values() for token in course.tokens})
        yield from (Step(["deposit", KEEPER, token, 0]) for token in tokens)
        for course in self.courses.values():
            yield Step(["create", KEEPER, *course.tokens])

    def has_first_mint(self, address: str) -> bool:
        """Whether shares are locked for the zero address, and others made right after."""
        own = [event for event in self.events if event.source == address]
        lock = ("Transfer", (ZERO, ZERO), (LOCKED_SHARES,))
        return any(
            (one.kind, one.parties, one.numbers) == lock
            and (other.kind, *other.parties[:1]) == ("Transfer", ZERO)
            for one, other in zip(own, own[1:])
        )

    def turn_fee_on(self, place: int, event: Event) -> None:
        if self.fee and not self.fee_on and event.block >= self.fee[1]:
            self.fee_on = True
            self.act(place, [Step(["feeto", "admin", self.names.holder(self.fee[0])])])

    def of_pair(self, place: int, event: Event, course: Course) -> None:
        if event.kind == "Transfer":
            self.share_transfer(place, event, course)
        elif event.kind == "Approval":
            self.passed["Approval events, which move nothing"] += 1
        elif event.kind == "Sync":
            self.update(place, event, self.partner(place), course)
        elif event.kind is None:
            raise Unfit(f"{event}: {course.pool} is named as a pair, and a pair has no such event")
        elif place == 0 or self.partner(place - 1) is not event:
            raise Unfit(f"{event}: a {event.kind} of {course.pool} without its Sync right before")

    def partner(self, place: int) -> Optional[Event]:
        """The Mint, Burn or Swap to which a Sync belongs: the very next log of its block."""
        sync = self.events[place]
        for event in self.events[place + 1 : place + 2]:
            is_next = (event.block, event.index) == (sync.block, sync.index + 1)
            is_end = sync.kind == "Sync" and event.kind in ENDS and event.source == sync.source
            return event if is_next and is_end else None
        return None

    def end(self, course: Course) -> None:
        for *_, event in course.minted + course.burned:
            raise Unfit(f"{event}: shares of {course.pool} made or ended by no Mint or Burn")
        self.skims(course, course.outputs)

    def act(self, place: int, steps: list[Step]) -> Act:
        self.acts.append(Act(place, steps))
        return self.acts[-1]

    # ---- units of tokens

    def of_token(self, place: int, event: Event) -> None:
        if event.kind != "Transfer":
            self.passed["events of tokens that are no Transfer"] += 1
            return
        giver, taker = (self.courses.get(party) for party in event.parties)
        if not giver and not taker:
            self.passed["Transfers of tokens from no pair to no pair"] += 1
        elif not any(course and course.begun for course in (giver, taker)):
            self.passed["events before an opening"] += 1
        else:
            self.compared["Transfer"] += 1
            self.move(place, event, giver, taker)

    def move(
        self, place: int, event: Event, giver: Optional[Course], taker: Optional[Course]
    ) -> None:
        """Units of a token come to a pair, or leave one, or both."""
        (sender, receiver), token = event.parties, self.names.tokens[event.source]
        n = fits(event.numbers[0], AMOUNT, event, f"an amount of {token}")
        arrival = None
        if taker and taker.begun:
            steps = bring(taker.pool, token, n, self.names.actor(sender), event)
            arrival = self.act(place, steps)
        if giver and giver.begun:
            if token not in giver.tokens:
                raise Unfit(f"{event}: {giver.pool} sends {token}, which is none of its tokens")
            giver.outputs.append(Output(place, event, token, receiver, n, arrival))
            giver.last = place

    def bring_unseen(
        self, course: Course, amounts: tuple, event: Event, user: str = KEEPER
    ) -> list[Step]:
        """What came of the tokens whose logs are not there."""
        steps = []
        for token, n in zip(course.tokens, amounts):
            if token in self.seen or n == 0:
                continue
            if n < 0:
                raise Unfit(
                    f"{event}: {-n} units of {token} left {course.pool} by no event of the pair:"
                    " its balance was changed from outside, or an event is missing"
                )
            fits(n, AMOUNT, event, f"an amount of {token}")
            steps += bring(course.pool, token, n, user, event)
        return steps

    def take_outputs(self, course: Course, amounts: tuple, to: str, event: Event) -> list[Output]:
        """The transfers by which a swap or burn pays: the last before its Sync. Others skimmed."""
        paid = zip(course.tokens, amounts)
        due = sorted((token, n, to) for token, n in paid if n and token in self.seen)
        at = max(0, len(course.outputs) - len(due))
        taken = course.outputs[at:]
        if sorted((one.token, one.n, one.to) for one in taken) != due:
            asked = " and ".join(f"{n} {token} to {to}" for token, n, to in due)
            told = " and ".join(f"{one.n} {one.token} to {one.to}" for one in taken)
            raise Unfit(
                f"{event}: a {event.kind} of {course.pool} pays {asked}, and by the logs of the"
                f" tokens {told or 'nothing'} left the pair"
            )
        self.skims(course, course.outputs[:at])
        course.outputs = []
        return taken

    def receiver(self, course: Course, taken: list[Output], amounts: tuple, to: str) -> str:
        """Who gets an output. Another pair gets it at once only if nothing of it came between."""
        if to not in self.courses:
            return self.names.holder(to)
        target = self.courses[to]
        whole = all(token in self.seen for token, n in zip(course.tokens, amounts) if n)
        if not (taken and whole and target.begun and target.last <= taken[-1].place):
            return KEEPER
        for output in taken:
            output.arrival.dropped = True
        return target.pool

    def skims(self, course: Course, outputs: list[Output]) -> None:
        """Transfers that no swap or burn explains are of both tokens, to one receiver."""
        both = [token for token in course.tokens if token in self.seen]
        for at in range(0, len(outputs), len(both) or 1):
            taken = outputs[at : at + len(both)]
            if sorted(one.token for one in taken) != both or len({one.to for one in taken}) != 1:
                raise Unfit(
                    f"{taken[0].event}: {taken[0].n} units of {taken[0].token} left {course.pool}"
                    " by no swap, burn or skim"
                )
            sent = {one.token: one.n for one in taken}
            amounts = tuple(sent.get(token) for token in course.tokens)
            holder = self.receiver(course, taken, (), taken[0].to)
            skim = Step(["skim", KEEPER, course.pool, holder], taken[-1].event, amounts)
            self.act(taken[-1].place, [skim, *retire(course, amounts, holder)])
        course.outputs = []

    # ---- shares

    def share_transfer(self, place: int, event: Event, course: Course) -> None:
        (sender, receiver), (n,) = event.parties, event.numbers
        if sender == ZERO:
            course.minted.append((receiver, n, event))
        elif (sender, receiver) == (course.address, ZERO):
            course.burned.append((n, event))
        elif not course.begun:
            self.passed["events before an opening"] += 1
        else:
            self.hand_over(place, event, course)

    def hand_over(self, place: int, event: Event, course: Course) -> None:
        """Shares go from a user to a holder."""
        (sender, receiver), (n,) = event.parties, event.numbers
        course.need_supply(event)
        fits(n, AMOUNT, event, f"shares of {course.pool}")
        if self.names.actor(sender) == KEEPER:
            raise Unfit(f"{event}: shares of {course.pool} are sent by {sender}, which is no user")
        self.compared["Transfer"] += 1
        user, holder = self.names.user(sender), self.names.holder(receiver)
        steps = course.lend_shares(user, n)
        course.shares.update({user: -n})
        course.shares.update({holder: n})
        self.act(place, [*steps, Step(["transfer", user, course.pool, holder, n], event)])

    def fee_shares(self, course: Course, made: list, event: Event) -> int:
        """Shares of the protocol's fee among those that a Mint or Burn made besides its own."""
        if not made:
            return 0
        receiver, n, _ = made[0]
        if len(made) > 1 or not self.fee_on or receiver != self.fee[0]:
            raise Unfit(
                f"{event}: a {event.kind} makes {n} shares for {receiver}: where this is the"
                f" protocol's fee, give --fee-to {receiver}@BLOCK with its first block"
            )
        course.shares[self.names.holder(receiver)] += n
        return n

    # ---- what changes reserves

    def update(self, place: int, sync: Event, partner: Optional[Event], course: Course) -> None:
        """A Sync, with the Mint, Burn or Swap that it belongs to."""
        after = course.ordered(sync.numbers)
        for reserve, token in zip(after, course.tokens):
            fits(reserve, RESERVE, sync, f"the reserve of {token} in {course.pool}")
        if course.begun:
            self.perform(place, sync, partner, course, after)
        else:
            self.open(place, sync, partner, course, after)
        course.reserves, course.minted, course.burned, course.last = after, [], [], place

    def perform(
        self, place: int, sync: Event, partner: Optional[Event], course: Course, after: tuple
    ) -> None:
        """The function of the pair that ends with a Sync."""
        event, shares = partner or sync, len(course.minted) + len(course.burned)
        if event.kind in ("Sync", "Swap") and shares:
            raise Unfit(f"{sync}: shares of {course.pool} are made or ended by a {event.kind}")
        if event.kind in ("Mint", "Burn"):
            course.need_supply(event)
            course.need_product(event)
        function = {"Sync": self.sync, "Swap": self.swap, "Mint": self.mint, "Burn": self.burn}
        steps = function[event.kind](event, course, after)
        if partner:
            steps.append(Step(["pool", course.pool], sync, (*after, *after, course.supply)))
            self.compared[partner.kind] += 1
        self.compared.update({"Transfer": shares, "Sync": 1})
        self.act(place, steps)

    def sync(self, event: Event, course: Course, after: tuple) -> list[Step]:
        self.skims(course, course.outputs)
        gifts = tuple(new - old for new, old in zip(after, course.reserves))
        sync = Step(["sync", KEEPER, course.pool], event, after)
        return [*self.bring_unseen(course, gifts, event), sync]

    def swap(self, event: Event, course: Course, _after: tuple) -> list[Step]:
        inputs, outs = course.ordered(event.numbers[:2]), course.ordered(event.numbers[2:])
        sender, to = event.parties
        taken = self.take_outputs(course, outs, to, event)
        holder, user = self.receiver(course, taken, outs, to), self.names.actor(sender)
        return [
            *self.bring_unseen(course, inputs, event, user),
            Step(["swap", user, course.pool, *outs, holder], event, inputs + outs),
            *retire(course, outs, holder),
        ]

    def mint(self, event: Event, course: Course, _after: tuple) -> list[Step]:
        self.skims(course, course.outputs)
        amounts, user = course.ordered(event.numbers), self.names.actor(event.parties[0])
        is_first = course.supply == 0
        made = [one for one in course.minted if not is_first or one[:2] != (ZERO, LOCKED_SHARES)]
        if not made or course.burned:
            raise Unfit(f"{event}: a Mint of {course.pool} without the Transfer of its shares")
        to, n, _ = made[-1]
        fee, holder = self.fee_shares(course, made[:-1], event), self.names.holder(to)
        course.supply += sum(one[1] for one in course.minted)
        course.shares[holder] += n
        held = tuple(old + came for old, came in zip(course.reserves, amounts))
        return [
            *self.bring_unseen(course, amounts, event, user),
            Step(["pool", course.pool], event, (*course.reserves, *held)),
            Step(["mint", user, course.pool, holder], event, (n, fee)),
        ]

    def burn(self, event: Event, course: Course, after: tuple) -> list[Step]:
        amounts, (sender, to) = course.ordered(event.numbers), event.parties
        taken = self.take_outputs(course, amounts, to, event)
        if len(course.burned) != 1:
            raise Unfit(f"{event}: a Burn of {course.pool} without the Transfer of its shares")
        n, ended = course.burned[0]
        fee = self.fee_shares(course, course.minted, event)
        lent = course.lend_shares(course.pool, n)
        course.shares[course.pool] -= n
        course.supply += fee - n
        moved = zip(after, amounts, course.reserves)
        gifts = tuple(new + paid - old for new, paid, old in moved)
        holder = self.receiver(course, taken, amounts, to)
        return [
            *lent,
            *self.bring_unseen(course, gifts, event),
            Step(["balance", course.pool, course.pool], ended, (n,)),
            Step(["burn", self.names.actor(sender), course.pool, holder], event, (*amounts, fee)),
            *retire(course, amounts, holder),
        ]

    def open(
        self, place: int, sync: Event, partner: Optional[Event], course: Course, after: tuple
    ) -> None:
        """The pair is set up with the reserves of its first Sync, which is not compared."""
        supply = opened_supply(course, self.supplies.get(course.address), after, sync)
        course.begun, course.opened, course.product_unknown = True, True, self.fee_on
        course.outputs, course.shares[KEEPER] = [], supply - LOCKED_SHARES
        self.passed["events before an opening"] += len(course.minted) + len(course.burned)
        self.passed["events taken for an opening"] += 2 if partner else 1
        told = f"reserves {after[0]} and {after[1]}"
        self.openings.append(f"{course.pool} is set up from its first Sync, {sync}: {told}")
        self.act(place, list(opening(course, after, supply)))
