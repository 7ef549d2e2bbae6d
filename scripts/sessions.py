"""The stored sessions: lines with the replies that they must have, read from the files of sessions/.

Their form is told in sessions/README.md. `scripts/made_sessions.py` has more of them, which loops
make; `scripts/stored-replies` compares them all.
"""
import re
import sys
from collections import namedtuple
from dataclasses import dataclass
from pathlib import Path

ROOT = Path(__file__).resolve().parent.parent
FOLDER = ROOT / "sessions"

# A session without the lines of the opening that it follows.
Part = namedtuple("Part", "place name opening rows")


@dataclass
class Row:
    """A line and its reply, None where it has none. A free reply is one of many that are right."""

    place: str
    line: str
    reply: str = None
    is_free: bool = False
    delivers: tuple = None  # the least and the most that the quote in the reply delivers


@dataclass
class Session:
    name: str
    rows: list
    end: str = "\n"  # what stands behind the last line
    is_short: bool = True  # the model, which has no thought of speed, can answer it

    def text(self):
        return "\n".join(row.line for row in self.rows) + self.end

    def answered(self):
        return [row for row in self.rows if row.reply is not None]


def refuse_if(test, place, why):
    if test:
        sys.exit(f"{place}: {why}")


def take(place, text, rows):
    """Takes a line of a file: a line of the session, its reply, or what the quote in it delivers."""
    last = rows[-1] if rows else None
    if text[0] in "[{ ":
        refuse_if(last and last.reply is None, place, "the line before has no reply")
        rows.append(Row(place, text))
    elif found := re.fullmatch(r"([=~])> (.+)", text):
        refuse_if(not last or last.reply is not None, place, "no line stands above this reply")
        last.reply, last.is_free = found[2], found[1] == "~"
    elif found := re.fullmatch(r"delivers ([0-9]+)( or more)?", text):
        refuse_if(not last or not last.is_free or last.delivers, place, "no free reply stands above")
        least = int(found[1])
        last.delivers = (least, None if found[2] else least)
    else:
        sys.exit(f"{place}: neither a line of a session nor what stands below one")


def parts_of(path):
    parts = []
    for number, text in enumerate(path.read_bytes().decode().split("\n"), 1):
        place = f"{path.relative_to(ROOT)}:{number}"
        if not text or text.startswith("#"):
            continue
        if found := re.fullmatch(r"session (\w+)(?: after (\w+))?", text):
            parts.append(Part(place, found[1], found[2], []))
        else:
            refuse_if(not parts, place, "no session is named above")
            take(place, text, parts[-1].rows)
    return parts


def whole(part, parts, behind=()):
    """The rows of a session, behind those of its openings."""
    refuse_if(part.name in behind, part.place, "the session follows itself")
    refuse_if(not part.rows or part.rows[-1].reply is None, part.place, "a reply is missing")
    if part.opening is None:
        return part.rows
    refuse_if(part.opening not in parts, part.place, f"there is no {part.opening}")
    return whole(parts[part.opening], parts, (*behind, part.name)) + part.rows


def stored():
    """The sessions of all files. One that others follow is in those and does not come by itself."""
    parts = {}
    for path in sorted(FOLDER.rglob("*.txt")):
        for part in parts_of(path):
            refuse_if(part.name in parts, part.place, "another session has this name")
            parts[part.name] = part
    openings = {part.opening for part in parts.values()}
    sessions = {name: Session(f"{part.place} {name}", whole(part, parts)) for name, part in parts.items()}
    return [session for name, session in sessions.items() if name not in openings]
