"""The picture of a run."""
from __future__ import annotations

from .arrows import Arrows
from .labels import MOST_LETTERS, label_steps, shortened
from .layout import CAPTION_LETTER, LETTER, MARGIN, columns, heights, wrapped
from .names import Names
from .rows import rows_of
from .svg import Svg
from .transmissions import transmissions

LEAST_WIDTH = 640
LINE_HEIGHT = 18
NAME_TOP, CAPTION_TOP = 26, 50
MOST_WORDS = 40


def paint(run, name):
    """The picture of a run as the text of an SVG document; `name` is that of the script."""
    return painted(run, name, all_sent(run), has_keys=False)


def all_sent(run):
    """What was under way in a run, by its names; each step has its labels then."""
    names = Names(run)
    label_steps(run, names)
    return transmissions(run, names)


def painted(run, name, sent, has_keys):
    """The picture of a run in which this was under way, with or without the keys of what it shows."""
    rows = rows_of(run, sent)
    places = columns(run.script.ends, rows, sent)
    width = max(places.width, LEAST_WIDTH)
    caption = wrapped(run.script.caption, int((width - 2 * MARGIN) / CAPTION_LETTER))
    top = CAPTION_TOP if name else NAME_TOP
    levels = heights(places, rows, sent, top + len(caption) * LINE_HEIGHT + 14)
    painter = Painter(run, Svg(f"{name} as a ladder", has_keys), places, levels)
    painter.paint_head(name, caption, top)
    painter.paint_ends()
    painter.paint_gutter()
    for step in run.steps:
        painter.paint_step(step)
    painter.paint_transmissions(sent)
    return painter.document(width)


class Painter:
    """Paints one run, whose columns and heights are known."""

    def __init__(self, run, svg, places, levels):
        self._run = run
        self._svg = svg
        self._columns = places
        self._heights = levels

    def document(self, width):
        """The document of this width, closed by the foot."""
        return self._svg.document(width, self._paint_foot())

    def paint_head(self, name, caption, top):
        """The name of the script, if it has one, and its caption from a height down."""
        if name:
            self._svg.text((MARGIN, NAME_TOP), [(name, "title")])
        self._paint_lines([(line, "caption") for line in caption], top)

    def _paint_lines(self, lines, height):
        """Lines of text with their classes, from a height down; answers the height below them."""
        for text, class_ in lines:
            self._svg.text((MARGIN, height), [(text, class_)])
            height += LINE_HEIGHT
        return height

    def paint_ends(self):
        """The name and the line of each end, with a gap where its clock ticks."""
        for end, x in self._columns.place.items():
            self._svg.taken.add_end(x)
            top = self._heights.top
            for step in self._run.steps:
                if step.event.kind == "t" and step.event.end == end:
                    height = self._heights.steps[step.number]
                    self._svg.line((x, top), (x, height - 14), "line")
                    self._svg.line((x, height - 14), (x, height + 14), "gap")
                    top = height + 14
            self._svg.line((x, top), (x, self._heights.bottom), "line")
            for height in self._heights.names:
                self._svg.box((x, height), len(end) * LETTER + 24, 22, "box")
                self._svg.text((x, height + 4), [(end, "end")], "middle")

    def paint_gutter(self):
        """The script's lines and comments at the left."""
        for height in self._heights.earlier:
            self._svg.text((MARGIN, height + 4), [("earlier", "gutter")])
        for height, row in self._heights.gutter:
            if row.lines:
                self._svg.text((MARGIN, height + 4), [(f"{row.lines} {row.shown}", "gutter")], whole=_whole(row), lines=row.key)
        for height, comment in self._heights.comments:
            self._svg.text((MARGIN, height), [(comment, "comment")])

    def paint_step(self, step):
        """The arrow of foreign bytes, and the labels."""
        height = self._heights.steps[step.number]
        if step.foreign:
            self._paint_foreign(step, height)
        lines = f"{step.event.line}-{step.event.line}"
        for label in step.labels:
            side = self._columns.label_side(label.end)
            place = (self._columns.place[label.end] + 10 * side, height + self._columns.drop(step, label) + 4)
            parts = [(label.word, label.class_), (label.shown[len(label.word):], "rest")]
            self._svg.text(place, parts, "start" if side > 0 else "end", whole=_whole(label), lines=lines)

    def _paint_foreign(self, step, height):
        """An arrow from beyond an end's labels to its line."""
        foreign = step.foreign
        x, reach = self._columns.place[foreign.receiver], self._columns.reach[foreign.receiver]
        start = (x + self._columns.label_side(foreign.receiver) * (reach - 8), height)
        group = self._svg.group("flight foreign", foreign_title(step), f"foreign.{step.number}")
        self._svg.arrow(start, (x, height), group)
        self._svg.dot(start, group, "ring")

    def paint_transmissions(self, sent):
        """The arrows of what the ends gave, and then what each says along it."""
        all_arrows = [Arrows(self._svg, self._columns, self._heights, one) for one in sent]
        for arrows in all_arrows:
            arrows.paint()
        for arrows in all_arrows:
            arrows.paint_texts()

    def _paint_foot(self):
        """What is cut off, the words that changed and the deceptions; answers the height below them."""
        run = self._run
        note = "" if self._svg.has_keys else _cut_note(run)
        lines = [(note, "note")] if note else []
        changed = [
            (f"{end} word {file} {index}: {before:04X} → {after:04X}", None)
            for (end, file, index), before, after in run.foot.changed(run.script.words)
        ]
        lines += changed[:MOST_WORDS]
        if len(changed) > MOST_WORDS:
            lines.append((f"and {len(changed) - MOST_WORDS} further words", "note"))
        lines.append((f"deceived {run.foot.deceived}", "word red" if run.foot.deceived else "word"))
        if run.foot.transfer:
            lines.append((shortened(run.foot.transfer, MOST_LETTERS), "word"))
        return self._paint_lines(lines, self._heights.bottom + 24)


def foreign_title(step):
    """What the foreign bytes of a step are, where they went, and the bytes."""
    foreign = step.foreign
    return f"foreign to {foreign.receiver}: {step.labels[0].rest.strip()}; arrived; {foreign.data.hex(' ').upper()}"


def _whole(one):
    """The whole text of a label or a row of which a part is shown, else None."""
    return None if one.shown == one.text else one.text


def _cut_note(run):
    """What of the run isn't drawn."""
    if run.cut_before:
        count = f"{run.window.arrows} arrows" if len(run.happenings) < run.window.steps else f"{run.window.steps} steps"
        return f"Cut before line {run.cut_before}, at {count}: --from {run.cut_before} draws what follows."
    if run.window.first > run.script.lines:
        return f"Nothing from line {run.window.first} on: the script's last line is {run.script.lines}."
    if run.window.first > 1 or run.window.last:
        last = f" to {run.window.last}" if run.window.last else ""
        return f"Lines from {run.window.first}{last} of the script; what stands below is of the whole run."
    return "" if run.steps else "No event."
