"""For the tests: pictures, and what is to be seen in them: arrows, labels, the room that texts take."""
from __future__ import annotations

import functools
import math
import re
import xml.etree.ElementTree as ElementTree
from dataclasses import dataclass
from pathlib import Path

from ladder.command import draw
from ladder.run import Window

TOP = Path(__file__).resolve().parent.parent
EXAMPLES = sorted(path for path in (TOP / "examples").iterdir() if path.suffix in (".df1", ".route", ".rehearsal"))
SVG = "{http://www.w3.org/2000/svg}"
ADVANCE = {"gutter": 6.6, "title": 9.6, "caption": 6.6, "comment": 6.2, "note": 6.6}


@functools.lru_cache(maxsize=None)
def picture(script, window=Window(), words=("replay",)):
    """The picture of an example's script, or of a script that is given as a text, by these words of the program."""
    if isinstance(script, Path):
        return draw(script.read_bytes(), script.name, [str(TOP / "df1")], window, words_of(script))
    return draw(script.encode(), "a script", [str(TOP / "df1")], window, words)


def words_of(script):
    """The words of the program that run the script of an example; of a rehearsal they stand in its first line."""
    if script.suffix == ".rehearsal":
        return tuple(re.match("# df1 (rehearse .*?):", script.read_text())[1].split())
    return ("route",) if script.suffix == ".route" else ("replay",)


@dataclass(frozen=True)
class Arrow:
    """An arrow: what it says of itself, its classes, and the points where it begins and ends."""

    text: str
    classes: frozenset
    begin: tuple
    end: tuple


@dataclass(frozen=True)
class Text:
    """A text: all that it says, what is shown of it, its classes, and the corners of the room that it takes."""

    words: str
    shown: str
    classes: frozenset
    place: tuple
    corners: tuple


class Seen:
    """A picture as a reader sees it, from the top down."""

    def __init__(self, picture):
        root = ElementTree.fromstring(picture)
        self.size = float(root.get("width")), float(root.get("height"))
        groups = [group for group in root.iter(f"{SVG}g") if "flight" in group.get("class", "").split()]
        self.flights = sorted((_arrow(group) for group in groups), key=lambda arrow: (arrow.begin[1], arrow.end[1]))
        self.texts = sorted((_text(element) for element in root.iter(f"{SVG}text")), key=lambda text: text.place[1])
        self.ends = {text.words: text.place[0] for text in self.texts if "end" in text.classes}

    @property
    def arrows(self):
        """The arrows, as `a>b ACK`; with what became of it where it didn't just arrive, as `a>b ACK; 2 of 2 bytes lost`."""
        return [arrow.text for arrow in self.flights]

    @property
    def beside(self):
        """The labels, each with the end beside which it stands."""
        near = {round(x + side * 10, 1): end for end, x in self.ends.items() for side in (-1, 1)}
        found = [(near.get(text.place[0]), text) for text in self.texts if text.classes & {"word", "late", "rest"}]
        return [(end, text) for end, text in found if end]

    @property
    def labels(self):
        """The labels, as `b exec 0100..`."""
        return [f"{end} {text.words}" for end, text in self.beside]

    def words(self, class_=None):
        """The texts of a class, or those without one."""
        return [text.words for text in self.texts if (class_ in text.classes if class_ else not text.classes)]


def _arrow(group):
    """An arrow from its group of shapes."""
    what, fate, _bytes = group.find(f"{SVG}title").text.split("; ")
    text = what.replace(" to ", ">", 1).replace(": ", " ", 1) + ("" if fate == "arrived" else f"; {fate}")
    line, head = group.find(f"{SVG}line"), group.find(f"{SVG}polygon")
    end = (line.get("x2"), line.get("y2")) if head is None else head.get("points").split(" ")[0].split(",")
    classes = frozenset(group.get("class").split())
    return Arrow(text, classes, (float(line.get("x1")), float(line.get("y1"))), (float(end[0]), float(end[1])))


def _text(element):
    """A text, and the corners of its box, turned as it is."""
    parts = element.findall(f"{SVG}tspan")
    shown = "".join(part.text or "" for part in parts)
    classes = frozenset(class_ for part in parts for class_ in part.get("class", "").split())
    title = element.find(f"{SVG}title")
    x, y = float(element.get("x")), float(element.get("y"))
    width = len(shown) * max([ADVANCE[class_] for class_ in classes if class_ in ADVANCE], default=7.2)
    left = {"end": -width, "middle": -width / 2}.get(element.get("text-anchor"), 0.0)
    turn = math.radians(float(element.get("transform", "rotate(0 ").split("(")[1].split(" ")[0]))
    corners = [(left, -8), (left + width, -8), (left + width, 2), (left, 2)]
    turned = tuple((x + u * math.cos(turn) - v * math.sin(turn), y + u * math.sin(turn) + v * math.cos(turn)) for u, v in corners)
    return Text(title.text if title is not None else shown, shown, classes, (x, y), turned)


def crosses(arrow, text):
    """Whether the line of an arrow crosses the box of a text."""
    ends = (arrow.begin, arrow.end)
    corners = text.corners + text.corners[:1]
    return any(_part(ends, edge) and _part(edge, ends) for edge in zip(corners, corners[1:]))


def _part(line, points):
    """Whether a straight line parts two points."""
    (x, y), (u, v) = line
    first, second = ((u - x) * (b - y) - (v - y) * (a - x) for a, b in points)
    return (first > 0) != (second > 0)


def overlap(one, other):
    """Whether the boxes of two texts overlap: no side of either parts them."""
    if abs(one.place[1] - other.place[1]) > 400:
        return False
    for corners in (one.corners, other.corners):
        for (x, y), (u, v) in zip(corners, corners[1:]):
            sides = [[(a - x) * (u - x) + (b - y) * (v - y) for a, b in box] for box in (one.corners, other.corners)]
            if max(sides[0]) <= min(sides[1]) or max(sides[1]) <= min(sides[0]):
                return False
    return True
