"""Streams of a Redis server whose ids are numbers of lines: the entry N-0 belongs to line N.

An id is taken once. So an entry can be added as often as one likes, by as many as like, and stands
there once: whoever does not know whether it was added, adds it again. The server is that of
REDIS_URL, and redis://localhost:6379 where nothing is set.
"""
import os
import sys
import time
from pathlib import Path

import redis

PROGRAM = os.environ.get("EXCHANGE", str(Path(__file__).resolve().parents[2] / "exchange"))
LOG = os.environ.get("EXCHANGE_LOG", "commands")
MOST = 1000  # entries asked for or added at once


class Stream:
    def __init__(self, name):
        self.name = name
        self.server = redis.Redis.from_url(os.environ.get("REDIS_URL", "redis://localhost:6379"), socket_timeout=10)

    def last(self):
        """The number of the last entry, 0 where there is none."""
        found = self._again(lambda: self.server.xrevrange(self.name, count=1))
        return _number(found[0][0]) if found else 0

    def after(self, place, wait=0):
        """Entries behind this place, as pairs of number and text. It waits this many milliseconds
        for the first, and gives none where none came."""
        asks = {self.name: f"{place}-0"}
        found = self._again(lambda: self.server.xread(asks, count=MOST, block=wait or None))
        return [(_number(key), entry[b"text"]) for _, entries in found for key, entry in entries]

    def add(self, pairs):
        """Adds pairs of number and text, in the order of their numbers. What is there already has to
        be the same: no more is known of it where a connection was lost before the answer came."""
        for start in range(0, len(pairs), MOST):
            some = pairs[start : start + MOST]
            for (number, text), added in zip(some, self._again(lambda: self._send(some))):
                if isinstance(added, redis.ResponseError) and self._at(number) != text:
                    sys.exit(f"{self.name}: entry {number} is not {text!r}: {added}")

    def _send(self, pairs):
        pipeline = self.server.pipeline()  # all of them or none
        for number, text in pairs:
            pipeline.xadd(self.name, {"text": text}, id=f"{number}-0")
        return pipeline.execute(raise_on_error=False)

    def _at(self, number):
        found = self._again(lambda: self.server.xrange(self.name, f"{number}-0", f"{number}-0"))
        return found[0][1][b"text"] if found else None

    def _again(self, ask):
        """Asks until the server answers."""
        while True:
            try:
                return ask()
            except (redis.ConnectionError, redis.TimeoutError):
                time.sleep(0.05)


def _number(key):
    return int(key.split(b"-")[0])
