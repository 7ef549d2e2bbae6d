"""The proved engine and its check of certificates, inside a Python process.

    from exchange import Engine, check

    with Engine() as engine:
        engine.answer(["deposit", "alice", "ETH", 1000])  # [1, "ok", 1000, 1000]

It stands on the shared object that `examples/embed/build` makes, and on nothing else.
"""

from __future__ import annotations

import json
from ctypes import CDLL, POINTER, Structure, byref, create_string_buffer
from ctypes import c_bool, c_char_p, c_size_t, c_uint8, c_uint64, c_void_p
from dataclasses import dataclass
from pathlib import Path

OUT = Path(__file__).resolve().parents[2] / "crates/amm_ffi/out"
DONE, MEMORY, SHUT, OPEN, BROKEN, FULL = range(6)
CODES = ("YES", "BAD_CERT", "BAD_ROUTE", "BAD_DELIVERED", "BAD_BOUND")
BOUND_ROOM = 39


class Handle(Structure):
    """`struct exchange`: a handle begins shut, and only the library changes it."""

    _fields_ = [("address", c_void_p), ("is_open", c_bool)]


class Answered(Structure):
    """`struct exchange_answered`."""

    _fields_ = [("status", c_uint8), ("length", c_size_t)]


class Checked(Structure):
    """`struct exchange_checked`."""

    _fields_ = [
        ("status", c_uint8),
        ("verdict", c_uint8),
        ("delivered", c_uint64),
        ("length", c_size_t),
    ]


LIBRARY = CDLL(str(OUT / "libexchange.so"))
HANDLE, ROOM = POINTER(Handle), (c_char_p, c_size_t)
for name, result, parameters in (
    ("open", c_uint8, (HANDLE,)),
    ("answer", Answered, (HANDLE, *ROOM, *ROOM)),
    ("reply", Answered, (HANDLE, *ROOM)),
    ("close", None, (HANDLE,)),
    ("check", Checked, (*ROOM, *ROOM)),
):
    call = getattr(LIBRARY, f"exchange_{name}")
    call.restype, call.argtypes = result, parameters


class Engine:
    """A ledger of its own, which answers commands one after the other. Use it on one thread."""

    def __init__(self) -> None:
        self._handle = Handle()
        self._room = create_string_buffer(256)
        if LIBRARY.exchange_open(byref(self._handle)) != DONE:
            raise MemoryError

    def answer(self, command: list) -> list:
        """The reply to a command: its number, then "ok" and results, or "no" and a refusal."""
        line = json.dumps(command, separators=(",", ":")).encode()
        handle, room = byref(self._handle), self._room
        given = LIBRARY.exchange_answer(handle, line, len(line), room, len(room))
        if given.status == DONE and given.length > len(room):
            room = self._room = create_string_buffer(given.length)
            given = LIBRARY.exchange_reply(handle, room, len(room))
        if given.status == SHUT:
            raise ValueError("the engine is closed")
        if given.status != DONE:
            raise MemoryError
        return json.loads(room.raw[: given.length])

    def close(self) -> None:
        """Gives the memory back. An engine that is closed answers nothing."""
        LIBRARY.exchange_close(byref(self._handle))

    def __enter__(self) -> Engine:
        return self

    def __exit__(self, *_: object) -> None:
        self.close()

    def __del__(self) -> None:
        self.close()


@dataclass(frozen=True)
class Verdict:
    """What is found of a certificate: YES with two amounts, or the first thing that is not so."""

    code: str
    delivered: int | None = None
    bound: int | None = None


def check(certificate: bytes) -> Verdict:
    """Checks a certificate. After a YES no route over its pools delivers more than the bound."""
    digits = create_string_buffer(BOUND_ROOM)
    found = LIBRARY.exchange_check(certificate, len(certificate), digits, len(digits))
    if found.status != DONE:
        raise MemoryError
    if found.verdict != 0:
        return Verdict(CODES[found.verdict])
    return Verdict("YES", found.delivered, int(digits.raw[: found.length]))
