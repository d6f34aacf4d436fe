"""What an end gave, split into messages, polls and pairs.

An end gives whole items, one behind another; responses may stand inside a full-duplex frame.
"""
from __future__ import annotations

from dataclasses import dataclass

DLE, STX, ETX = 0x10, 0x02, 0x03
SOH, ENQ, ACK = 0x01, 0x05, 0x06

PAIRS = {
    "full": {0x05: "ENQ", 0x06: "ACK", 0x0F: "NAK", 0x15: "NAK"},
    "master": {0x06: "ACK", 0x0F: "NAK, a reset", 0x15: "NAK, a reset"},
    "slave": {0x04: "EOT", 0x06: "ACK", 0x0F: "NAK", 0x15: "NAK"},
}


class NoItem(Exception):
    """A byte that no item has at its place."""


@dataclass(frozen=True)
class Item:
    """A message with its body, or a poll or a pair with its name; the station that it is for, and its bytes' places among all that were given."""

    name: str
    station: str | None
    first: int
    last: int
    inside: tuple[Item, ...] = ()
    is_whole: bool = True
    body: bytes | None = None

    def places(self):
        """The places of its own bytes: those of the responses inside it are theirs."""
        others = {place for item in self.inside for place in (item.first, item.last)}
        return tuple(place for place in range(self.first, self.last + 1) if place not in others)


class Splitter:
    """Splits the bytes of one side of a line, as they come."""

    def __init__(self, side, check_size):
        self._side = side
        self._check_size = check_size
        self._place = 0
        self._polled = None
        self._expects = self._outside
        self._begin()

    def _begin(self):
        """An item begins with the next byte."""
        self._first = self._place
        self._station = None
        self._body = bytearray()
        self._inside = []
        self._left = 0

    def feed(self, data):
        """The items that end in these bytes. Raises NoItem where they are none."""
        ended = []
        for byte in data:
            item = self._expects(byte)
            self._place += 1
            if item:
                ended.append(item)
        return ended

    def unfinished(self):
        """What is begun and isn't whole yet, as an item up to the last byte so far, or None."""
        if self._expects == self._outside:
            return None
        return Item("unfinished", self._station, self._first, self._place - 1, tuple(self._inside), is_whole=False)

    def _outside(self, byte):
        """Outside an item: its first byte."""
        self._begin()
        self._want(byte, DLE)
        self._expects = self._second

    def _second(self, byte):
        """Behind an item's first byte: what it is."""
        name = PAIRS[self._side].get(byte)
        if name:
            if self._side == "master" and byte == ACK and self._polled:
                self._station = self._polled
                name = f"ACK to {self._polled}"
            return self._end(name)
        if self._side == "master":
            self._want(byte, SOH, ENQ)
            self._left = 2
            self._expects = self._address if byte == SOH else self._poll
        else:
            self._want(byte, STX)
            self._expects = self._unit

    def _poll(self, byte):
        """In a poll: its station, then its check."""
        if self._left == 2:
            self._station = str(byte)
        self._left -= 1
        if self._left == 0:
            self._polled = self._station
            return self._end(f"poll {self._station}")

    def _address(self, byte):
        """In the front of a master's message: its station, then the pair that begins the body."""
        if self._station is None:
            self._station = str(byte)
            return
        self._want(byte, (DLE, STX)[2 - self._left])
        self._left -= 1
        if self._left == 0:
            self._expects = self._unit

    def _unit(self, byte):
        """In a body: a byte of it, or the first of a pair."""
        if byte == DLE:
            self._expects = self._escaped
        else:
            self._body.append(byte)

    def _escaped(self, byte):
        """Behind a DLE in a body: a second one, the body's end, or a response."""
        self._expects = self._unit
        if byte == DLE:
            self._body.append(DLE)
        elif byte == ETX:
            self._left = self._check_size
            self._expects = self._check
        else:
            name = PAIRS["full"].get(byte) if self._side == "full" and byte != ENQ else None
            if name is None:
                raise NoItem
            response = Item(f"{name}, embedded", None, self._place - 1, self._place)
            self._inside.append(response)
            return response

    def _check(self, _byte):
        """In a check."""
        self._left -= 1
        if self._left == 0:
            return self._end("message", bytes(self._body))

    def _end(self, name, body=None):
        """The item ends with this byte."""
        self._expects = self._outside
        return Item(name, self._station, self._first, self._place, tuple(self._inside), body=body)

    @staticmethod
    def _want(byte, *wanted):
        """Raises NoItem unless the byte is one of these."""
        if byte not in wanted:
            raise NoItem


def split_foreign(side, check_size, data):
    """Foreign bytes as pairs of an item and its bytes, or one pair without an item where they are no whole items."""
    splitter = Splitter(side, check_size)
    try:
        items = splitter.feed(data)
    except NoItem:
        items = []
    if not items or splitter.unfinished():
        return [(None, data)]
    inner = {response for item in items for response in item.inside}
    return [(item, data[item.first:item.last + 1]) for item in items if item not in inner]
