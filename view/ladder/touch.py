"""What a picture's arrows show when they are touched: their bytes and fields, the lines that they are of, and where a script is edited to disturb them."""
from __future__ import annotations

from itertools import groupby

from .painting import foreign_title
from .parts import parts_of

# The settings that tell how long an end waits, with their first values.
WAITS = {"ack_ticks": 10, "poll_ticks": 10}


class Touch:
    """Tells of the arrows of one run in which this was under way."""

    def __init__(self, run, sent):
        self._run = run
        self._sent = sent
        self._steps = {step.number: step for step in run.steps}
        self._begins = {}
        for pair, queue in run.queues.items():
            for departure in queue.departures:
                self._begins.setdefault((pair, run.events[departure.step].line), departure.first)

    def arrows(self):
        """All arrows by their keys."""
        found = {one.key(flight): self._flight(one, flight) for one in self._sent for flight in one.ended + one.waiting[:1]}
        for step in self._run.steps:
            if step.foreign:
                found[f"foreign.{step.number}"] = self._foreign(step)
        return found

    def _foreign(self, step):
        """An arrow of foreign bytes."""
        side = self._run.script.side(step.event.end)
        letters = self._run.script.letters.get(step.foreign.receiver, {})
        is_item = step.foreign.item is not None
        parts = parts_of(side, self._run.script.check_size, step.foreign.data, letters) if is_item else []
        found = _shown(foreign_title(step), step.foreign.data, parts)
        return {**found, "lines": [step.event.line], "reports": list(step.reported)}

    def _flight(self, one, flight):
        """An arrow of what an end gave."""
        script, queue = self._run.script, self._run.queues[one.sender, flight.receiver]
        letters = script.letters.get(one.station or flight.receiver, {})
        if one.message and one.message.is_reply:
            letters = script.letters.get(one.sender, {})
        parts = parts_of(script.side(one.sender), script.check_size, one.data, letters)
        steps = {one.begun, *(departure.step for departure, _ in queue.departures_of(one.places)), *(change.step for change in flight.changes)}
        told = {one.begun, flight.ended} & self._steps.keys()
        return {
            **_shown(one.title(flight), one.data, parts),
            "lines": sorted({self._run.events[step].line for step in steps}),
            "reports": sorted(place for step in told for place in self._steps[step].reported),
            "end": one.sender,
            "station": flight.receiver if one.sender == "m" else None,
            "clock": self._clock(one),
            "moves": self._moves(one, flight, queue),
            "waits": self._waits(one, queue) if flight.ended is None else None,
        }

    def _clock(self, one):
        """The end that waits while this is held back, and for how many ticks."""
        if self._run.script.mode == "half":
            end, key = "m", "ack_ticks" if one.message and one.sender == "m" or one.name == "ACK" else "poll_ticks"
        else:
            is_response = one.name.split(",")[0] in ("ACK", "NAK")
            end, key = self._run.script.receivers(one.sender)[0] if is_response else one.sender, "ack_ticks"
        return [end, int(self._run.script.settings.get(f"{end}.{key}", WAITS[key]))]

    def _moves(self, one, flight, queue):
        """Which bytes of which events take it from the queue: line, kind and count of the event, and the first byte of it and how many, again and again."""
        found = []
        for departure, _ in queue.departures_of(one.places):
            event = self._run.events[departure.step]
            begin = self._begins[(one.sender, flight.receiver), event.line]
            places = [place - begin for place in one.places if departure.first <= place < departure.after]
            for _, run in groupby(enumerate(places), lambda pair: pair[1] - pair[0]):
                offsets = [place for _, place in run]
                found.append({"line": event.line, "kind": event.kind, "count": event.count, "first": offsets[0], "size": len(offsets)})
        return found

    def _waits(self, one, queue):
        """Of what is still under way: how many bytes of the queue are ahead of its first, and how many of its own follow them."""
        places = [place for place in one.places if place >= queue.head]
        return {"ahead": places[0] - queue.head, "size": places[-1] + 1 - places[0]} if places else None


def _shown(title, data, parts):
    """What is shown of an arrow: its title without the bytes, the bytes, and its parts."""
    what, fate, _ = title.split("; ")
    told = [{"name": part.name, "first": part.first, "after": part.after, "text": part.text} for part in parts]
    return {"what": what, "fate": fate, "bytes": data.hex().upper(), "parts": told}
