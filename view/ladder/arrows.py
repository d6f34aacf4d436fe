"""The arrows of what went over the line."""
from __future__ import annotations

import math

from .layout import CUT_OFF, LETTER
from .placing import BY_ARROW, Box

UNDER_WAY_DROP = 16
UNDER_WAY_TEXT = "under way"

# How far a name stands from the begin of its arrow, by how much it moves along it, and how far above and below the arrow it stands.
NEAR, MOVE, ABOVE, BELOW = 12, 16, 6, 14


class Arrows:
    """Paints the arrows of one transmission."""

    def __init__(self, svg, columns, heights, transmission):
        self._svg = svg
        self._columns = columns
        self._heights = heights
        self._one = transmission
        self._start = (columns.place[transmission.sender], heights.begins[transmission.sender, transmission.first])
        self._ends = []

    def paint(self):
        """The arrow to each end that it came to, or was lost on its way to, and the begin of one that is under way."""
        for flight in sorted(self._one.ended, key=self._one.is_overheard, reverse=True):
            self._paint_flight(flight)
        if self._one.waiting:
            self._paint_waiting()
        for end in self._ends:
            self._svg.taken.add_arrow(self._start, end)

    def _paint_flight(self, flight):
        """The arrow to an end that it reached, or the line to where it was lost."""
        neighbour, place = self._columns.gap_before(flight.receiver, self._one.sender)
        x = neighbour + CUT_OFF * (place - neighbour) if flight.is_cut_off else place
        end = (x, self._heights.steps[flight.ended])
        group = self._group(flight)
        if flight.is_cut_off:
            self._svg.line(self._start, end, group=group)
        else:
            self._svg.arrow(self._start, end, group)
        for mark in self._one.marks(flight):
            self._paint_mark(mark, group, end, abs(place - x))
        self._ends.append(end)

    def _paint_waiting(self):
        """The begin of the arrow to where it is still under way."""
        flight = self._one.waiting[0]
        neighbour, place = self._columns.gap_before(self._one.sender, flight.receiver)
        end = (place + CUT_OFF * (neighbour - place), self._start[1] + UNDER_WAY_DROP)
        group = self._group(flight, " under-way")
        self._svg.line(self._start, end, group=group)
        self._svg.dot(end, group, "ring")
        self._ends.append(end)

    def paint_texts(self):
        """What the arrows say: that one is under way, and their name."""
        if self._one.waiting:
            self._paint_under_way(self._ends[-1])
        self._paint_name()

    def _paint_under_way(self, end):
        """That it is under way, below the end of its line, or beside it where something would cross it there."""
        width = len(UNDER_WAY_TEXT) * LETTER
        middle, beside = -width / 2, 9 if self._goes_right else -9 - width
        places = [(end[0] + middle, end[1] + 16), (end[0] + beside, end[1] + 4), (end[0] + beside, end[1] + 16)]
        best = min(places, key=lambda place: self._svg.taken.cost(Box(*place, 0, width), (self._start, end)))
        self._svg.text(best, [(UNDER_WAY_TEXT, "rest")])

    def _paint_name(self):
        """The name along the flattest of its lines: above its begin, or where something would cross it there further on, or below.

        Where an arrow would cross it everywhere it goes without its TNS.
        """
        end = min(self._ends, key=self._slope)
        cost, place, parts = self._best([(self._one.name, None), (self._one.number, "rest")], end)
        if cost >= BY_ARROW and self._one.number:
            cost, place, parts = min((cost, place, parts), self._best([(self._one.name, None)], end), key=lambda found: found[0])
        flights = self._one.ended + self._one.waiting[:1]
        if all(map(self._one.is_overheard, flights)):
            parts = [(text, "rest") for text, _ in parts]
        anchor = "start" if self._goes_right else "end"
        self._svg.text(place[0], parts, anchor, math.degrees(place[1]), key=self._one.key(flights[0]))

    def _best(self, parts, end):
        """How well these parts of the name stand best along the line to an end, where, and they themselves."""
        width = sum(len(text) for text, _ in parts) * LETTER
        least = None
        for place in self._places(end, width):
            cost = self._svg.taken.cost(self._box(place, width), (self._start, end))
            if least is None or cost < least[0]:
                least = (cost, place)
            if cost == 0:
                break
        return least[0], least[1], parts

    @property
    def _goes_right(self):
        """Whether its arrows go to the right."""
        return self._ends[0][0] > self._start[0]

    def _slope(self, end):
        """How steeply a line to an end goes down."""
        return math.atan2(end[1] - self._start[1], abs(end[0] - self._start[0]))

    def _places(self, end, width):
        """Where a name of this width may stand, each with its angle, the best first."""
        slope, towards = self._slope(end), 1 if self._goes_right else -1
        room = math.dist(self._start, end) - width - NEAR
        for across in (-ABOVE, BELOW):
            for move in range(0, max(1, int(room)), MOVE):
                along = NEAR + move
                x = self._start[0] + towards * along * math.cos(slope)
                yield (x, self._start[1] + along * math.sin(slope) + across / math.cos(slope)), slope * towards

    def _box(self, place, width):
        """The room of a name of this width at a place with its angle."""
        reach = (0, width) if self._goes_right else (-width, 0)
        return Box(*place[0], *reach, place[1])

    def _paint_mark(self, mark, group, end, room):
        """A cross or a dot at the height of a mark on the line to an end, behind which there is so much room, and what it means.

        The text stands behind the end of the line where it fits, else below the line, else beyond the line of the sender.
        """
        if mark.step not in self._heights.steps:
            return
        y = self._heights.steps[mark.step]
        part = (y - self._start[1]) / (end[1] - self._start[1])
        x = self._start[0] + part * (end[0] - self._start[0])
        shape = self._svg.cross if mark.is_loss else self._svg.dot
        shape((x, y), group)
        towards = math.copysign(9, end[0] - self._start[0])
        width = len(mark.text) * LETTER + 14
        if y == end[1] and width < room:
            self._paint_note((x, y + 4), towards, mark.text)
        elif width < abs(x - self._start[0]):
            self._paint_note((x, y + 16), -towards, mark.text)
        else:
            self._paint_note((self._start[0], y + 4), -towards, mark.text)

    def _paint_note(self, place, away, text):
        """A text at one side of a place, so far away."""
        self._svg.text((place[0] + away, place[1]), [(text, "rest")], "start" if away > 0 else "end")

    def _group(self, flight, more=""):
        """The group of shapes of its arrow to an end."""
        marks = [("overheard", self._one.is_overheard(flight)), ("lost", flight.losses), ("altered", flight.changes)]
        classes = " ".join(["flight"] + [name for name, holds in marks if holds]) + more
        return self._svg.group(classes, self._one.title(flight), self._one.key(flight))
