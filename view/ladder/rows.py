"""The rows of a picture: its steps and comments from the top down, what shows little joined to what shows more."""
from __future__ import annotations

from dataclasses import dataclass, field
from itertools import groupby

from .labels import FEW_ENDS, shortened
from .run import Step

EVENT_LETTERS = 22


@dataclass
class Row:
    """Steps that stand at one height: more than one where bytes are given, or delivered, event by event."""

    steps: list[Step] = field(default_factory=list)
    is_loud: bool = False
    closed: set[str | None] = field(default_factory=set)

    @property
    def key(self):
        """The script's lines of all its steps, the first and the last."""
        return f"{self.steps[0].event.line}-{self.steps[-1].event.line}"

    @property
    def lines(self):
        """The script's lines that it stands for, or nothing where an earlier row does."""
        numbers = [step.event.line for step in self.steps if step.is_first_part]
        if not numbers:
            return ""
        return f"{numbers[0]}" if len(numbers) == 1 else f"{numbers[0]}–{numbers[-1]}"

    @property
    def text(self):
        """The events of its lines; of several for one station the sum."""
        texts = []
        for _, group in groupby((step.event for step in self.steps if step.is_first_part), lambda event: event.station):
            events = list(group)
            texts.append(events[0].text(str(sum(event.count for event in events)) if len(events) > 1 else None))
        return ", ".join(texts)

    @property
    def shown(self):
        """The events, cut where they are long."""
        return shortened(self.text, EVENT_LETTERS)

    def add(self, step, is_loud, is_end):
        """Adds a step, and whether something ends in it or is told of it."""
        self.steps.append(step)
        self.is_loud = self.is_loud or is_loud
        if is_loud or is_end:
            self.closed.add(step.event.station)

    def takes(self, step, is_loud, is_crowded):
        """Whether a step may stand in it: takes behind what they begin, deliveries before what they end."""
        event, last = step.event, self.steps[-1].event
        if (event.end, event.kind) != (last.end, last.kind):
            return False
        if event.kind == "k":
            return not is_loud
        is_near = event.station == last.station or is_crowded
        return event.kind == "d" and is_near and event.station not in self.closed and not (is_loud and self.is_loud)


def rows_of(run, sent):
    """The rows of a run in which this was under way: rows of steps, and comments as they are."""
    is_crowded = len(run.script.ends) > FEW_ENDS
    begins = {one.begun for one in sent}
    ends = {flight.ended: one.is_overheard(flight) for one in sent for flight in one.ended}
    rows = []
    for one in run.happenings:
        if not isinstance(one, Step):
            rows.append(one)
            continue
        is_end = one.number in ends
        is_loud = one.event.kind not in "kd" or bool(one.told) or one.number in begins or not ends.get(one.number, True)
        if not rows or not isinstance(rows[-1], Row) or not rows[-1].takes(one, is_loud, is_crowded):
            rows.append(Row())
        rows[-1].add(one, is_loud, is_end)
    return rows
