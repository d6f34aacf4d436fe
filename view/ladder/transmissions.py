"""What went over the line in a run: each item that an end gave, and its flight through each queue."""
from __future__ import annotations

from dataclasses import dataclass

from pccc.fields import Message

from .line import Change


@dataclass(frozen=True)
class Flight:
    """The way of an item to one end: the step in which its last byte left the queue, and what became of its bytes."""

    receiver: str
    ended: int | None
    losses: tuple[tuple[int, int], ...]
    changes: tuple[Change, ...]

    @property
    def lost(self):
        """How many of its bytes were lost."""
        return sum(count for _, count in self.losses)

    @property
    def is_cut_off(self):
        """Whether its last byte was lost."""
        return any(step == self.ended for step, _ in self.losses)


@dataclass(frozen=True)
class Mark:
    """Something that happened to bytes of a flight on the way: the step, what it was, and whether it was a loss."""

    step: int
    text: str
    is_loss: bool


@dataclass(frozen=True)
class Transmission:
    """An item that an end gave, what it is called, its own bytes and their places, and the step of the first of them.

    `ended` are its flights that ended in a step that is drawn. `waiting` are those that are still under way, the flight to the station
    that it names first; there are none where another ended there, or where this flight has ended.
    """

    name: str
    message: Message | None
    sender: str
    station: str | None
    places: tuple[int, ...]
    data: bytes
    begun: int
    ended: tuple[Flight, ...]
    waiting: tuple[Flight, ...]

    @property
    def number(self):
        """The TNS of a message as it is written behind its name, or nothing."""
        return f" TNS {self.message.tns:04X}" if self.message and len(self.message.body) >= 6 else ""

    @property
    def first(self):
        """The place of its first byte."""
        return self.places[0]

    def is_overheard(self, flight):
        """Whether a flight is to another station than the one that it names."""
        return self.station not in (None, flight.receiver)

    def marks(self, flight):
        """The losses of a flight, and then what was altered."""
        size = len(self.data)
        losses = [(step, "lost" if count == size else f"{count} of {size} lost") for step, count in flight.losses]
        return [Mark(step, text, True) for step, text in losses] + [
            Mark(change.step, self._change(change), False) for change in flight.changes
        ]

    def fate(self, flight):
        """What became of a flight."""
        fates = [f"{flight.lost} of {len(self.data)} bytes lost"] if flight.losses else []
        fates += [self._change(change) for change in flight.changes]
        fates += ["under way"] if flight.ended is None else []
        return ", ".join(fates) or "arrived"

    def _change(self, change):
        """Which of its bytes was altered, and how."""
        number = sum(place <= change.place for place in self.places)
        return f"byte {number}: {change.before:02X} → {change.after:02X}"

    def title(self, flight):
        """What it is, where it went and what became of it, and its bytes."""
        name = f"{self.name},{self.number}" if self.number else self.name
        return f"{self.sender} to {flight.receiver}: {name}; {self.fate(flight)}; {self.data.hex(' ').upper()}"

    def key(self, flight):
        """What tells an arrow from all others of a picture."""
        return f"{self.sender}.{self.first}.{flight.receiver}"

    @property
    def last_step(self):
        """The last step in which one of its flights ended, or in which it was begun."""
        return max([self.begun] + [flight.ended for flight in self.ended])


def transmissions(run, names):
    """All that was under way in the steps that are drawn, in the order in which it was begun, by its names."""
    if not run.steps:
        return []
    first_step = run.steps[0].number
    found = []
    for sender, stream in run.streams.items():
        queues = [queue for queue in run.queues.values() if queue.sender == sender]
        for item in stream.all_items():
            if not item.is_whole or not all(queue.has_left(item.last, first_step) for queue in queues):
                named = names.item(item, sender, stream.step_of(item.first))
                found.append(_transmission(item, named, stream, queues, first_step))
    drawn = [one for one in found if one.ended or one.waiting]
    return sorted(drawn, key=lambda one: (one.begun, one.first))


def _transmission(item, named, stream, queues, first_step):
    """The transmission of an item with its name and message, as far as it is drawn from a step on."""
    places = item.places()
    data = bytes(stream.data[place] for place in places)
    flights = [_flight(queue, item, places) for queue in queues]
    ended = tuple(flight for flight in flights if flight.ended is not None and flight.ended >= first_step)
    waiting = tuple(flight for flight in flights if flight.ended is None)
    if len(waiting) < len(flights) and not any(flight.receiver == item.station for flight in waiting):
        waiting = ()
    waiting = tuple(sorted(waiting, key=lambda flight: flight.receiver != item.station))
    return Transmission(*named, queues[0].sender, item.station, places, data, stream.step_of(item.first), ended, waiting)


def _flight(queue, item, places):
    """What became of an item, whose bytes have these places, in a queue."""
    departures = queue.departures_of(places)
    losses = tuple((departure.step, count) for departure, count in departures if departure.lost)
    ended = queue.step_of(item.last) if item.is_whole else None
    return Flight(queue.receiver, ended, losses, tuple(queue.changes_of(places)))
