"""Tests of the engine inside a Python process: `pytest examples/embed`, or run this file."""

from __future__ import annotations

import json
import re
from pathlib import Path

from exchange import Engine, Verdict, check

ROOT = Path(__file__).resolve().parents[2]


def worked_session() -> tuple[list[list], list[list]]:
    """The commands of the README's session, and its replies."""
    text = (ROOT / "README.md").read_text(encoding="utf-8")
    found = re.search(r"<<'LINES'\n(.*?)\nLINES\n.*?```\n(\[1,.*?)\n```", text, re.DOTALL)
    assert found
    commands, replies = (
        [json.loads(line) for line in part.splitlines()] for part in found.groups()
    )
    return commands, replies


def opened(engine: Engine) -> None:
    """A pool of a million ETH and four million USD, and half of each left with alice."""
    for command in (
        ["deposit", "alice", "ETH", 2000000],
        ["deposit", "alice", "USD", 8000000],
        ["create", "alice", "USD", "ETH"],
        ["transfer", "alice", "ETH", "ETH/USD", 1000000],
        ["transfer", "alice", "USD", "ETH/USD", 4000000],
        ["mint", "alice", "ETH/USD", "alice"],
    ):
        assert engine.answer(command)[1] == "ok"


def balance(engine: Engine, token: str, holder: str) -> int:
    return engine.answer(["balance", token, holder])[2]


def test_worked_session() -> None:
    commands, replies = worked_session()
    assert len(commands) == len(replies) == 12
    with Engine() as engine:
        assert [engine.answer(command) for command in commands] == replies


def test_borrower() -> None:
    """A loan of 1000 ETH costs alice 4, and one that comes back a unit short costs nothing."""
    with Engine() as engine:
        opened(engine)

        def borrow(back: int) -> list:
            script = [["transfer", "alice", "ETH", "ETH/USD", back]]
            return engine.answer(["flash", "alice", "ETH/USD", 1000, 0, script])[1:]

        assert borrow(1003) == ["no", 19, "K"]
        assert balance(engine, "ETH", "alice") == 1000000
        assert balance(engine, "ETH", "ETH/USD") == 1000000

        assert borrow(1004) == ["ok", 1004, 0, 1000, 0]
        assert balance(engine, "ETH", "alice") == 999996
        assert balance(engine, "ETH", "ETH/USD") == 1000004
        assert balance(engine, "USD", "alice") == 4000000


def test_two_engines() -> None:
    """What one is told, the other does not know."""
    with Engine() as one, Engine() as other:
        assert one.answer(["deposit", "alice", "ETH", 5]) == [1, "ok", 5, 5]
        assert other.answer(["deposit", "bob", "ETH", 7]) == [1, "ok", 7, 7]
        assert one.answer(["total", "ETH"]) == [2, "ok", 5]
        one.close()
        assert other.answer(["total", "ETH"]) == [2, "ok", 7]


def test_certificate() -> None:
    """The certificate of a split, a long reply, is found right with the amounts of the split."""
    with Engine() as engine:
        lines = (ROOT / "examples/route.jsonl").read_text(encoding="utf-8").splitlines()
        replies = [engine.answer(json.loads(line)) for line in lines]
    split = next(reply for reply in replies if len(reply) == 7)
    (certificate,) = (reply[2] for reply in replies if str(reply[2:]).startswith("[['amm-"))
    text = json.dumps(certificate).encode()
    assert len(text) > 256
    assert check(text) == Verdict("YES", split[3], int(split[4]))


def test_closed() -> None:
    engine = Engine()
    engine.close()
    try:
        engine.answer(["total", "ETH"])
    except ValueError:
        return
    raise AssertionError("a closed engine has answered")


def test_check() -> None:
    """The verdicts that were worked out by hand."""
    lines = ROOT / "examples/certificates.txt", ROOT / "examples/certificates.verdicts"
    certificates, verdicts = (path.read_bytes().splitlines() for path in lines)
    assert len(certificates) == len(verdicts) > 0
    for certificate, verdict in zip(certificates, verdicts):
        answer, *rest = json.loads(verdict)
        if answer == "yes":
            assert check(certificate) == Verdict("YES", rest[0], int(rest[1]))
        else:
            assert check(certificate) == Verdict(rest[0])


if __name__ == "__main__":
    for name, test in list(globals().items()):
        if name.startswith("test_"):
            test()
            print(f"{name}: right")
