"""Which room is taken in a picture, and where a further text stands best: where no line crosses it and no other text stands."""
from __future__ import annotations

import math
from dataclasses import dataclass
from functools import cached_property

BAND = 60

# How bad it is that a text stands in another one, is crossed by an arrow, or by the line of an end.
IN_TEXT, BY_ARROW, BY_END = 100, 10, 1


@dataclass(frozen=True)
class Box:
    """The room of a text: where it is anchored, how far it reaches along its direction from there, and its angle in radians."""

    x: float
    y: float
    first: float
    last: float
    angle: float = 0.0
    above: float = 10.0
    below: float = 3.0

    def inner(self, point):
        """A point as the box has it: along its direction, and across."""
        x, y = point[0] - self.x, point[1] - self.y
        cosine, sine = math.cos(self.angle), math.sin(self.angle)
        return x * cosine + y * sine, y * cosine - x * sine

    @cached_property
    def corners(self):
        """Its four corners."""
        cosine, sine = math.cos(self.angle), math.sin(self.angle)
        places = [(along, across) for along in (self.first, self.last) for across in (-self.above, self.below)]
        return [(self.x + along * cosine - across * sine, self.y + along * sine + across * cosine) for along, across in places]

    @cached_property
    def rows(self):
        """The bands of the picture that it reaches into."""
        heights = [y for _, y in self.corners]
        return range(int(min(heights) // BAND), int(max(heights) // BAND) + 1)

    def is_crossed(self, start, end):
        """Whether a line goes through it."""
        (x, y), (to_x, to_y) = self.inner(start), self.inner(end)
        least, most = 0.0, 1.0
        for at, step, low, high in ((x, to_x - x, self.first, self.last), (y, to_y - y, -self.above, self.below)):
            if abs(step) < 1e-9:
                if not low < at < high:
                    return False
                continue
            parts = sorted(((low - at) / step, (high - at) / step))
            least, most = max(least, parts[0]), min(most, parts[1])
        return least < most

    def overlaps(self, other):
        """Whether another box has room in common with it."""
        return not (self._is_beside(other) or other._is_beside(self))

    def _is_beside(self, other):
        """Whether all of another box is at one side of this one."""
        points = [self.inner(point) for point in other.corners]
        along, across = zip(*points)
        return max(along) <= self.first or min(along) >= self.last or max(across) <= -self.above or min(across) >= self.below


class Taken:
    """The arrows, the lines of the ends and the texts that a picture has so far."""

    def __init__(self):
        self._arrows = {}
        self._texts = {}
        self._ends = []

    def add_arrow(self, start, end):
        """An arrow from a point to another."""
        for row in range(int(min(start[1], end[1]) // BAND), int(max(start[1], end[1]) // BAND) + 1):
            self._arrows.setdefault(row, []).append((start, end))

    def add_text(self, box):
        """A text."""
        for row in box.rows:
            self._texts.setdefault(row, []).append(box)

    def add_end(self, x):
        """The line of an end, from the top down."""
        self._ends.append(x)

    def cost(self, box, own):
        """How badly a text stands in a box; its own arrow doesn't matter."""
        arrows = {line for row in box.rows for line in self._arrows.get(row, ()) if line != own}
        texts = {other for row in box.rows for other in self._texts.get(row, ())}
        lefts = [x for x, _ in box.corners]
        ends = sum(min(lefts) < x < max(lefts) for x in self._ends)
        crossing = sum(box.is_crossed(*line) for line in arrows)
        return IN_TEXT * sum(map(box.overlaps, texts)) + BY_ARROW * crossing + BY_END * ends
