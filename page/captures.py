"""What is heard in a capture: its dissection item by item, each message in words, and its counts."""
from __future__ import annotations

import re

from pccc.exchanges import Exchanges
from pccc.fields import read_message

from ladder.parts import parts_of

# A longer capture isn't shown; so much of its dissection is read, and so many of its items have a row.
MOST_BYTES = 2**18
MOST_OUTPUT = 2**24
MOST_ITEMS = 2000

# What is heard and is no fault of the line, by the side.
SOUND = {
    "full": ("good", "ack", "nak", "enq"),
    "master": ("message", "poll", "ack", "reset"),
    "slave": ("good", "ack", "nak", "eot"),
}
CHECK_SIZES = {"bcc": 1, "crc": 2}
ITEM = re.compile(r"([0-9]+) ([0-9]+) ([a-z-]+)(?: (.*))?")
LOGGED = re.compile(r"^(?:.* )?(TX|RX)((?: +[0-9A-Fa-f]{2})+)\s*$", re.M)
RESPONSES = ("ack", "nak")
MESSAGES = ("good", "message")


class Captures:
    """Answers captures, by a program."""

    def __init__(self, program):
        self._program = program

    def told(self, body, words):
        """What is heard in a capture in hexadecimal, or in one direction of a log. Raises Busy, Late, OSError or ValueError."""
        side, check, way = words.get("side"), words.get("check"), words.get("way", "")
        if side not in SOUND or check not in CHECK_SIZES or way not in ("", "TX", "RX"):
            raise ValueError("a side is full, master or slave, a check bcc or crc, a way TX or RX")
        text = body.decode("utf-8", "replace")
        data, ways = capture(text, way)
        if len(data) > MOST_BYTES:
            return {"ways": ways, "why": f"A capture of {len(data):,} bytes isn't shown: the most is {MOST_BYTES:,}."}
        run = self._program.run(["dissect", side, check], data, MOST_OUTPUT)
        if run.status != 0 or not run.is_whole:
            return {"ways": ways, "why": run.note or f"The program ended with status {run.status}."}
        items = [_item(line) for line in run.output.decode("ascii", "replace").splitlines()]
        exchanges = Exchanges()
        for other in [one for one in ways if capture(text, one)[0] != data]:
            self._keep(exchanges, [side, check], capture(text, other)[0])
        rows = [_row(item, items, data, side, CHECK_SIZES[check], exchanges) for item in items[:MOST_ITEMS]]
        return {"ways": ways, "bytes": data.hex().upper(), "items": rows, "count": len(items), **_counts(items, side)}


    def _keep(self, exchanges, words, data):
        """Keeps the commands that are heard in the other direction of a log, for the replies to them."""
        run = self._program.run(["dissect", *words], data[:MOST_BYTES], MOST_OUTPUT)
        for _, _, kind, rest in map(_item, run.output.decode("ascii", "replace").splitlines()):
            if kind in MESSAGES:
                exchanges.keep(read_message(_body(rest)))


def capture(text, way):
    """The bytes of hexadecimal text, or of one direction of a log as `df1-port --record` keeps it, and the directions that there are.

    Raises ValueError where it is neither.
    """
    logged = LOGGED.findall(text)
    if logged:
        ways = sorted({name for name, _ in logged}, reverse=True)
        chosen = way if way in ways else ways[0]
        return bytes.fromhex("".join(digits for name, digits in logged if name == chosen)), ways
    digits = re.sub(r"\s+", "", text)
    wrong = re.search("[^0-9A-Fa-f]", digits)
    if wrong:
        raise ValueError(f"`{wrong[0]}` is no hexadecimal digit")
    if len(digits) % 2:
        raise ValueError("there is an odd number of digits")
    return bytes.fromhex(digits), []


def _item(line):
    """The offsets of an item's first and last byte, its kind, and what it tells."""
    first, last, kind, rest = ITEM.fullmatch(line).groups()
    return int(first), int(last), kind, rest or ""


def _counts(items, side):
    """The counts as `df1 check` has them: what was heard, the faults among it, and the bytes of an unfinished item."""
    heard = [kind for _, _, kind, _ in items if kind != "open"]
    left = sum(last - first + 1 for first, last, kind, _ in items if kind == "open")
    return {"heard": len(heard), "bad": sum(kind not in SOUND[side] for kind in heard), "open": left}


def _row(item, items, data, side, check_size, exchanges):
    """What is shown of an item; a reply is named by its command among those that are known."""
    first, last, kind, rest = item
    row = {"first": first, "last": last, "kind": kind, "rest": rest, "isSound": kind in SOUND[side] or kind == "open"}
    if kind not in MESSAGES:
        return row
    own = _own_places(item, items)
    parts = parts_of(side, check_size, bytes(data[place] for place in own))
    told = [{"name": part.name, "text": part.text, "places": own[part.first:part.after]} for part in parts]
    return {**row, "says": exchanges.name(read_message(_body(rest))), "parts": told}


def _own_places(item, items):
    """The offsets of an item's own bytes: those of the responses inside it are theirs."""
    first, last = item[:2]
    inside = {place for begin, end, kind, _ in items if kind in RESPONSES and first < begin and end < last for place in (begin, end)}
    return [place for place in range(first, last + 1) if place not in inside]


def _body(fields):
    """The body of the fields that a dissection tells."""
    words = fields[fields.index("dst="):].split(" ")
    dst, src, command, status, tns = (bytes.fromhex(word.split("=")[1]) for word in words[:5])
    rest = words[6]
    return dst + src + command + status + tns[::-1] + (b"" if rest == "-" else bytes.fromhex(rest))
