"""Logs of Uniswap v2 pairs and of their tokens, read as `eth_getLogs` gives them.

A log that is not of the form that the core contracts give it is refused by a message that names it;
nothing is put right.
"""
import json
import re
from dataclasses import dataclass, field
from typing import Optional

ZERO = "0x" + 40 * "0"
TRANSFER = "Transfer(address,address,uint256)"
APPROVAL = "Approval(address,address,uint256)"
# The first topic of an event is the keccak hash of its signature (core, IUniswapV2Pair, ERC-20).
TOPICS = {
    TRANSFER: "0xddf252ad1be2c89b69c2b068fc378daa952ba7f163c4a11628f55a4df523b3ef",
    APPROVAL: "0x8c5be1e5ebec7d5bd14f71427d1e84f3dd0314c0f7b2291e5b200ac8c7c3b925",
    "Mint(address,uint256,uint256)": (
        "0x4c209b5fc8ad50758f13e2e1088ba56a560dff690a1c6fef26394f4c03821c4f"
    ),
    "Burn(address,uint256,uint256,address)": (
        "0xdccd412f0b1252819cb1fd330b93224ca42612892bb3f4f789976e6d81936496"
    ),
    "Swap(address,uint256,uint256,uint256,uint256,address)": (
        "0xd78ad95fa46c994b6551d0da85fc275fe613ce37657fb8d5e3d130840159d822"
    ),
    "Sync(uint112,uint112)": "0x1c411e9a96e071241c2f21f7726b17ae89e3cab4c78be50e062b03a9fffbbad1",
}
SIGNATURES = {topic: signature for signature, topic in TOPICS.items()}
# How many addresses (in topics) and numbers (in the data) each event has.
SHAPES = {
    "Transfer": (2, 1),
    "Approval": (2, 1),
    "Mint": (1, 2),
    "Burn": (2, 2),
    "Swap": (2, 4),
    "Sync": (0, 2),
}


class Unfit(Exception):
    """The logs are damaged, or say what the ledger has no lines for."""


@dataclass(frozen=True, order=True)
class Event:
    """A log that was read: `parties` are its indexed addresses, `numbers` those of its data."""

    block: int
    index: int
    source: str = field(compare=False)
    kind: Optional[str] = field(compare=False)
    parties: tuple = field(compare=False)
    numbers: tuple = field(compare=False)
    transaction: str = field(compare=False)

    def __str__(self) -> str:
        return f"block {self.block}, log {self.index}"


def hex_digits(value: object, digits: int, what: str) -> str:
    """The text of so many hexadecimal digits behind 0x, in small letters."""
    if not isinstance(value, str) or not re.fullmatch(rf"0x[0-9a-fA-F]{{{digits}}}", value):
        raise Unfit(f"{what} is not 0x and {digits} hexadecimal digits: {json.dumps(value)[:80]}")
    return value.lower()


def quantity(log: dict, name: str, what: str) -> int:
    """A number of a log, which nodes write in hexadecimal, and some tools as a JSON number."""
    value = log.get(name)
    if type(value) is int and value >= 0:
        return value
    if value is None:
        raise Unfit(f"{what} has no {name}: it is pending, or no log")
    if not isinstance(value, str) or not re.fullmatch("0x[0-9a-fA-F]{1,16}", value):
        raise Unfit(f"{what}: {name} is no number: {json.dumps(value)[:80]}")
    return int(value, 16)


def address_of(topic: str, what: str) -> str:
    if topic[2:26] != 24 * "0":
        raise Unfit(f"{what}: a topic is no address: {topic}")
    return "0x" + topic[26:]


def kind_of(topics: list) -> Optional[str]:
    """The event's name, or None where its first topic is none of those that are read."""
    return SIGNATURES.get(topics[0], "").partition("(")[0] or None if topics else None


def event_of(log: object, number: int) -> Event:
    """The event of one log; its kind is None where its first topic is not known."""
    what = f"log {number} of the input"
    if not isinstance(log, dict):
        raise Unfit(f"{what} is no JSON object: {json.dumps(log)[:80]}")
    if log.get("removed"):
        raise Unfit(f"{what} was removed by a reorganisation of the chain: fetch it again")
    block, index = quantity(log, "blockNumber", what), quantity(log, "logIndex", what)
    what += f" (block {block}, log {index})"
    source = hex_digits(log.get("address"), 40, f"{what}: address")
    transaction = hex_digits(log.get("transactionHash"), 64, f"{what}: transactionHash")
    topics = log.get("topics")
    if not isinstance(topics, list):
        raise Unfit(f"{what} has no list of topics")
    topics = [hex_digits(topic, 64, f"{what}: a topic") for topic in topics]
    kind, parties, numbers = kind_of(topics), (), ()
    if kind:
        addresses, words = SHAPES[kind]
        if len(topics) != 1 + addresses:
            raise Unfit(f"{what}: a {kind} has {1 + addresses} topics, and this has {len(topics)}")
        data = hex_digits(log.get("data"), 64 * words, f"{what}: the data of a {kind}")[2:]
        parties = tuple(address_of(topic, what) for topic in topics[1:])
        numbers = tuple(int(data[at : at + 64], 16) for at in range(0, len(data), 64))
    return Event(block, index, source, kind, parties, numbers, transaction)


def listed(text: str) -> list:
    """The logs of a text: an array, a node's answer with one as its result, or a log a line."""
    try:
        value = json.loads(text)
    except ValueError:
        try:
            return [json.loads(line) for line in text.splitlines() if line.strip()]
        except ValueError as why:
            raise Unfit(f"the input is neither a JSON array nor a log a line: {why}") from why
    if isinstance(value, dict) and "result" in value:
        value = value["result"]
    if isinstance(value, dict) and "error" in value:
        raise Unfit(f"the input is an error of the node: {json.dumps(value['error'])[:200]}")
    return value if isinstance(value, list) else [value]


def events_of(texts: list[str]) -> list[Event]:
    """All events of some texts, by block and log index."""
    logs = [log for text in texts for log in listed(text)]
    events = sorted(event_of(log, number) for number, log in enumerate(logs, 1))
    if not events:
        raise Unfit("there is no log in the input")
    for one, other in zip(events, events[1:]):
        if one == other:
            raise Unfit(f"two logs have the same place: {one}")
    return events
