"""A picture as SVG: shapes below, texts above them, and colours for light and dark readers."""
from __future__ import annotations

import math
import re
import xml.etree.ElementTree as ElementTree

from .placing import Box, Taken

NO_XML = re.compile("[^\t\n\r\x20-\ud7ff\ue000-\ufffd\U00010000-\U0010ffff]")

LETTER = 7.3

NAMES = ("paper", "ink", "faint", "rule", "late", "red", "foreign")
LIGHT = dict(zip(NAMES, ("#ffffff", "#1f2328", "#6e7781", "#afb8c1", "#9a6700", "#cf222e", "#8250df")))
DARK = dict(zip(NAMES, ("#0d1117", "#e6edf3", "#8b949e", "#484f58", "#d29922", "#ff7b72", "#d2a8ff")))

FORMS = """
text { font: 12px monospace; stroke-width: 4px; stroke-linejoin: round; paint-order: stroke; }
.title { font: bold 16px sans-serif; }
.caption, .note { font: 13px sans-serif; }
.comment { font: italic 12px sans-serif; }
.gutter { font-size: 11px; }
.end, .word { font-weight: bold; }
.line { stroke-width: 1.5px; }
.flight line { stroke-width: 1.5px; }
.flight.overheard line { stroke-width: 1px; }
.flight.lost line { stroke-dasharray: 6 4; }
.flight.under-way line { stroke-dasharray: 2 4; }
.cross { fill: none; stroke-width: 2.5px; }
.gap { stroke-width: 2px; stroke-dasharray: 2 4; }
"""

COLOURS = """
.paper, .ring, .box {{ fill: {paper}; }}
text {{ fill: {ink}; stroke: {paper}; }}
.gutter, .caption, .comment, .rest {{ fill: {faint}; }}
.line, .box {{ stroke: {rule}; }}
.flight line, .cross, .ring {{ stroke: {ink}; }}
.head {{ fill: {ink}; }}
.overheard line, .overheard .cross {{ stroke: {rule}; }}
.overheard .head {{ fill: {rule}; }}
.gap {{ stroke: {late}; }}
.late {{ fill: {late}; }}
.foreign line, .foreign .ring {{ stroke: {foreign}; }}
.foreign .head, .of-nobody {{ fill: {foreign}; }}
.altered line, .altered .cross {{ stroke: {red}; }}
.altered .head, .dot, .red {{ fill: {red}; }}
"""


def style():
    """The style of all pictures."""
    return f"{FORMS}{COLOURS.format(**LIGHT)}@media (prefers-color-scheme: dark) {{{COLOURS.format(**DARK)}}}\n"


class Svg:
    """An SVG document under construction. Texts are drawn above all shapes, whenever they come.

    With keys it is for a page that has the style already: what shows an arrow, or lines of the script, says which, for whoever touches it.
    """

    def __init__(self, title, has_keys=False):
        self.taken = Taken()
        self.has_keys = has_keys
        self._root = ElementTree.Element("svg", xmlns="http://www.w3.org/2000/svg", role="img")
        if not has_keys:
            self._add(self._root, "title").text = clean(title)
            self._add(self._root, "style").text = style()
        self._paper = self._add(self._root, "rect", class_="paper")
        self._shapes = self._add(self._root, "g")
        self._texts = self._add(self._root, "g")
        self._texts.set("xml:space", "preserve")  # some viewers drop the blank at which a part of a text begins

    @staticmethod
    def _add(parent, name, class_=None, **attributes):
        """Adds an element; numbers are written with at most one decimal."""
        if class_:
            attributes["class"] = class_
        texts = {key.replace("_", "-"): _number(value) for key, value in attributes.items()}
        element = ElementTree.SubElement(parent, name, texts)
        if parent.tag != "text":
            element.tail = parent.text = "\n"
        return element

    def group(self, class_, title, key):
        """A group of shapes that belong together, with a title that a viewer shows on pointing there, and the key of their arrow."""
        group = self._add(self._shapes, "g", class_)
        if self.has_keys:
            group.set("data-arrow", key)
        self._add(group, "title").text = clean(title)
        return group

    def line(self, start, end, class_=None, group=None):
        """A straight line."""
        parent = self._shapes if group is None else group
        self._add(parent, "line", class_, x1=start[0], y1=start[1], x2=end[0], y2=end[1])

    def box(self, centre, width, height, class_):
        """A rectangle around a point."""
        self._add(self._shapes, "rect", class_, x=centre[0] - width / 2, y=centre[1] - height / 2, width=width, height=height, rx=4)

    def dot(self, centre, group, class_="dot"):
        """A small circle."""
        self._add(group, "circle", class_, cx=centre[0], cy=centre[1], r=3.5)

    def cross(self, centre, group):
        """A cross."""
        x, y = centre
        self._add(group, "path", "cross", d=f"M{_number(x - 5)} {_number(y - 5)}l10 10m0 -10l-10 10")

    def arrow(self, start, end, group):
        """A line with a head at its end."""
        angle = math.atan2(end[1] - start[1], end[0] - start[0])
        neck = (end[0] - 8 * math.cos(angle), end[1] - 8 * math.sin(angle))
        self.line(start, neck, group=group)
        corners = [end] + [(end[0] - 10 * math.cos(angle + turn), end[1] - 10 * math.sin(angle + turn)) for turn in (0.4, -0.4)]
        self._add(group, "polygon", "head", points=" ".join(f"{_number(x)},{_number(y)}" for x, y in corners))

    def text(self, place, parts, anchor="start", angle=0.0, whole=None, key=None, lines=None):
        """A line of text from pairs of words and their class; `whole` is shown on pointing there. `key` is of an arrow, `lines` are of the script."""
        x, y = place
        width = sum(len(words) for words, _ in parts) * LETTER
        first = {"start": 0, "middle": -width / 2, "end": -width}[anchor]
        self.taken.add_text(Box(x, y, first, first + width, math.radians(angle)))
        element = self._add(self._texts, "text", x=x, y=y)
        for name, value in (("data-name-of", key), ("data-lines", lines)):
            if value and self.has_keys:
                element.set(name, value)
        if anchor != "start":
            element.set("text-anchor", anchor)
        if angle:
            element.set("transform", f"rotate({_number(angle)} {_number(x)} {_number(y)})")
        if whole:
            self._add(element, "title").text = clean(whole)
        for words, class_ in parts:
            if words:
                self._add(element, "tspan", class_).text = clean(words)

    def document(self, width, height):
        """The whole document, of this size."""
        self._root.set("width", _number(width))
        self._root.set("height", _number(height))
        self._root.set("viewBox", f"0 0 {_number(width)} {_number(height)}")
        self._paper.set("width", _number(width))
        self._paper.set("height", _number(height))
        return ElementTree.tostring(self._root, encoding="unicode") + "\n"


def clean(text):
    """The text without the characters that no XML document may have."""
    return NO_XML.sub("\ufffd", text)


def _number(value):
    """A number with at most one decimal; a text as it is."""
    if isinstance(value, str):
        return value
    return f"{value:.1f}".rstrip("0").rstrip(".")
