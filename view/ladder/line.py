"""The bytes on the line: what each end gave, and what became of each byte in each queue.

A step is the number of a part of an event, counted from 0. Bytes join the back of a queue and leave its head, so a queue is told by
the places of what was given: all up to its head have left it.
"""
from __future__ import annotations

from bisect import bisect_left, bisect_right
from dataclasses import dataclass, field

from .items import Splitter


class Stream:
    """All bytes that one end gave, split into items, with the step in which each was given."""

    def __init__(self, side, check_size):
        self.data = bytearray()
        self.items = []
        self._lasts = []
        self._splitter = Splitter(side, check_size)
        self._steps = []
        self._after = []

    def give(self, data, step):
        """Adds bytes that were given in a step, and answers the items that end in them."""
        self.data += data
        self._steps.append(step)
        self._after.append(len(self.data))
        ended = self._splitter.feed(data)
        self.items += ended
        self._lasts += [item.last for item in ended]
        return ended

    def step_of(self, place):
        """The step in which the byte of a place was given."""
        return self._steps[bisect_right(self._after, place)]

    def all_items(self):
        """The items, and what is begun and not yet given whole."""
        unfinished = self._splitter.unfinished()
        return self.items + [unfinished] if unfinished else self.items

    def next_end(self, place):
        """The place after the first item's end from a place on, or after the last byte that was given."""
        index = bisect_left(self._lasts, place)
        return self._lasts[index] + 1 if index < len(self._lasts) else len(self.data)


@dataclass(frozen=True)
class Departure:
    """Bytes that left a queue in one step: their places, and whether they were lost."""

    first: int
    after: int
    step: int
    lost: bool


@dataclass(frozen=True)
class Change:
    """A byte that was altered in a queue."""

    place: int
    step: int
    before: int
    after: int


@dataclass
class Queue:
    """The bytes on their way from an end to another."""

    stream: Stream
    sender: str
    receiver: str
    head: int = 0
    departures: list[Departure] = field(default_factory=list)
    changes: list[Change] = field(default_factory=list)
    _afters: list[int] = field(default_factory=list)
    _changed: list[int] = field(default_factory=list)

    def cut(self, count):
        """A count of events on the head, cut behind the bytes that end an item, but behind the last byte that waits."""
        parts, head = [], self.head
        while True:
            head_after = self.stream.next_end(head)
            part = head_after - head
            if part >= count or head_after == len(self.stream.data):
                return parts + [count]
            parts.append(part)
            head, count = head_after, count - part

    def leave(self, count, step, lost):
        """So many bytes leave the head, as far as there are any."""
        after = min(self.head + count, len(self.stream.data))
        if after > self.head:
            self.departures.append(Departure(self.head, after, step, lost))
            self._afters.append(after)
        self.head = after

    def alter(self, mask, step):
        """The head, if there is one, is combined with a mask."""
        if self.head < len(self.stream.data):
            before = self.changes[-1].after if self._is_altered() else self.stream.data[self.head]
            self.changes.append(Change(self.head, step, before, before ^ mask))
            self._changed.append(self.head)

    def _is_altered(self):
        """Whether the head was altered before."""
        return self._changed[-1:] == [self.head]

    def step_of(self, place):
        """The step in which the byte of a place left, or None."""
        index = bisect_right(self._afters, place)
        return self.departures[index].step if index < len(self.departures) else None

    def has_left(self, place, step):
        """Whether the byte of a place left before a step."""
        left = self.step_of(place)
        return left is not None and left < step

    def departures_of(self, places):
        """The departures of these places, which rise, each with how many of them it has."""
        found = []
        for index in range(bisect_right(self._afters, places[0]), len(self.departures)):
            departure = self.departures[index]
            if departure.first > places[-1]:
                break
            count = sum(departure.first <= place < departure.after for place in places)
            if count:
                found.append((departure, count))
        return found

    def changes_of(self, places):
        """What was altered at these places, which rise."""
        near = self.changes[bisect_left(self._changed, places[0]):bisect_right(self._changed, places[-1])]
        return [change for change in near if change.place in places]
