"""Where everything stands: a place from left to right for each end, and a height for each step."""
from __future__ import annotations

import textwrap
from dataclasses import dataclass, field

from .labels import FEW_ENDS
from .rows import Row
from .svg import LETTER

SMALL_LETTER = 6.7
CAPTION_LETTER = 7.0
COMMENT_LETTER = 6.6
COMMENT_LETTERS = 44
MARGIN = 12
LANE = 300
NARROW = 90
TALL = 800

# The part of its way that an arrow goes which doesn't arrive.
CUT_OFF = 0.75

# How far the row of an event of each kind reaches above and below its height; the same of what is begun, and of what stays under way.
ROWS = {"i": (10, 10), "k": (10, 10), "d": (10, 10), "x": (10, 22), "c": (10, 22), "t": (18, 18), "n": (22, 10)}
BEGIN = (20, 8)
UNDER_WAY = 22


@dataclass
class Columns:
    """The ends from left to right with the places of their lines, and the width of all."""

    ends: list[str]
    place: dict[str, float] = field(default_factory=dict)
    reach: dict[str, float] = field(default_factory=dict)
    width: float = 0.0

    def label_side(self, end):
        """Where the labels of an end stand: -1 at its left, 1 at its right."""
        return -1 if end == self.ends[0] else 1

    def drop(self, step, label):
        """How far below its step's height a label stands: above or, where they are many, below the arrows to the ends beyond."""
        if step.event.kind != "d" or label.end not in self.ends[1:-1]:
            return label.drop
        return label.drop + (12 if len(self.ends) > FEW_ENDS else -8)

    def gap_before(self, receiver, sender):
        """The place of the line next to the receiver's on the way from the sender, and the receiver's place."""
        index, towards = self.ends.index(receiver), self.ends.index(sender)
        neighbour = self.ends[index + (1 if towards > index else -1)]
        return self.place[neighbour], self.place[receiver]


def columns(ends, rows, sent):
    """The columns of these ends: each label beside its end, and each name along its arrow, has room."""
    steps = [step for row in rows if isinstance(row, Row) for step in row.steps]
    beside = {end: 60.0 for end in ends}
    along = {end: 0.0 for end in ends}
    for step in steps:
        for label in step.labels:
            beside[label.end] = max(beside[label.end], len(label.shown) * LETTER + 18)
    for one in sent:
        along[one.sender] = max(along[one.sender], _room(one))
        for mark in [mark for flight in one.ended for mark in one.marks(flight)]:
            beside[one.sender] = max(beside[one.sender], len(mark.text) * LETTER + 18)
    found = Columns(ends)
    x = max(_gutter(rows) + beside[ends[0]], _comments(rows))
    for index, end in enumerate(ends):
        found.place[end], found.reach[end] = x, beside[end]
        following = ends[index + 1:index + 2]
        if not following:
            x += beside[end]
        elif index == 0:
            x += max(LANE, along[end], *(along.values() if len(ends) > FEW_ENDS else [along[following[0]]]), _meeting(sent, end, following[0]))
        elif len(ends) > FEW_ENDS:
            x += max(beside[end], NARROW)
        else:
            x += max(beside[end], along[following[0]])
    found.width = x + MARGIN
    return found


def _room(one):
    """The room that the name of a transmission takes along its arrow."""
    room = len(one.name + one.number) * LETTER + 24
    arrives = not one.waiting and not any(flight.is_cut_off for flight in one.ended)
    return room if arrives else room / CUT_OFF


def _meeting(sent, left, right):
    """The room that names from a left and a right end take where their arrows meet."""
    from_right = [one for one in sent if one.sender == right]
    return max(
        (
            _room(one) + _room(other)
            for one in sent
            if one.sender == left
            for other in from_right
            if one.begun <= other.last_step and other.begun <= one.last_step
        ),
        default=0.0,
    )


def _gutter(rows):
    """The width of the script's lines at the left."""
    letters = [len(f"{row.lines} {row.shown} ") for row in rows if isinstance(row, Row)]
    return MARGIN + max(letters, default=0) * SMALL_LETTER


def _comments(rows):
    """The width of the comments at the left, longer ones wrapped."""
    letters = [min(len(row.text), COMMENT_LETTERS) for row in rows if not isinstance(row, Row)]
    return MARGIN + max(letters, default=0) * COMMENT_LETTER + 14


@dataclass
class Heights:
    """The heights of steps, of what is begun in them or was earlier, and of comments and the script's lines. Time goes downwards."""

    top: float
    bottom: float
    steps: dict[int, float] = field(default_factory=dict)
    begins: dict[tuple[str, int], float] = field(default_factory=dict)
    comments: list[tuple[float, str]] = field(default_factory=list)
    gutter: list[tuple[float, Row]] = field(default_factory=list)
    earlier: list[float] = field(default_factory=list)

    @property
    def names(self):
        """The heights at which the ends' names stand: at the top, and below again where the picture is tall."""
        return [self.top, self.bottom] if self.bottom - self.top > TALL else [self.top]

    def row(self, above, below):
        """Adds a row that reaches so far above and below its height, which is answered."""
        height = self.bottom + above
        self.bottom = height + below
        return height


def heights(places, rows, sent, top):
    """The heights of rows, from a top down, for these columns and what was under way."""
    found = Heights(top, top + 14)
    letters = round((places.place[places.ends[0]] - MARGIN - 14) / COMMENT_LETTER)
    begun = {step.number: [] for row in rows if isinstance(row, Row) for step in row.steps}
    for one in sent:
        if one.begun in begun:
            begun[one.begun].append(one)
        else:
            found.earlier.append(_begin_row(found, one))
    for row in rows:
        if isinstance(row, Row):
            _steps_row(found, places, row, [one for step in row.steps for one in begun[step.number]])
        else:
            found.bottom += 6
            for line in wrapped(row.text, letters):
                found.comments.append((found.row(12, 4), line))
    found.bottom += 12
    return found


def wrapped(text, letters):
    """The text in lines of at most so many letters, cut after the sixth."""
    return textwrap.wrap(text, letters, max_lines=6, placeholder=" …")


def _begin_row(found, one):
    """The row in which something is begun; answers its height."""
    height = found.row(BEGIN[0], BEGIN[1] + (UNDER_WAY if one.waiting else 0))
    found.begins[one.sender, one.first] = height
    return height


def _steps_row(found, places, row, begun):
    """The height of a row's steps, or of each item that is begun in them, and room for their labels."""
    levels = [_begin_row(found, one) for one in begun] or [found.row(*ROWS[row.steps[0].event.kind])]
    found.gutter.append((levels[0], row))
    height = levels[-1]
    for step in row.steps:
        found.steps[step.number] = height
        for label in step.labels:
            found.bottom = max(found.bottom, height + places.drop(step, label) + 10)
