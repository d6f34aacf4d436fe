"""The labels beside the ends: what the report tells there, and the events that no arrow shows."""
from __future__ import annotations

from dataclasses import dataclass

HEIGHT = 16
MOST_LETTERS = 40
FINE = ("exec", "answered", "routed")

# With more ends than these the picture is crowded: a station's labels are short, and what it hears of a message to another one stands at
# one height.
FEW_ENDS = 5

# How far the first line of the report stands below the height of its step.
DROPS = {"k": HEIGHT, "n": HEIGHT, "t": 24}


@dataclass(frozen=True)
class Label:
    """A label beside the line of an end: a word in the colour of its class, what follows, all of it, and how far below its step it stands."""

    end: str
    word: str
    class_: str
    rest: str
    text: str
    drop: float

    @property
    def shown(self):
        """What is shown of it, cut where it is long."""
        return shortened(f"{self.word}{self.rest}", MOST_LETTERS)


def shortened(text, letters):
    """The text, cut where it has more letters."""
    return text if len(text) <= letters else text[:letters - 1] + "…"


def label_steps(run, names):
    """Gives each step that is drawn its labels, from the top down."""
    for step in run.steps:
        step.labels = [_own(run, names, step)] if step.event.kind in "itn" else []
        for index, told in enumerate(step.told):
            class_ = "word" if told.kind in FINE else "word late"
            drop = DROPS.get(step.event.kind, 0) + index * HEIGHT
            step.labels.append(Label(told.who, told.kind, class_, _rest(run, names, step, told), told.text, drop))


def _own(run, names, step):
    """The label of an event that no arrow shows, or of foreign bytes."""
    event = step.event
    if event.kind == "i":
        text = f"issue {step.command}" + (f" to {event.station}" if event.station else "") + (f" for {event.source}" if event.source else "")
        return Label(event.end, text, "rest", "", text, 0)
    if event.kind == "t":
        text = f"{event.count} tick{'s' if event.count > 1 else ''}"
        return Label(event.end, text, "late", "", text, 0)
    name = names.foreign(step.foreign, step.number)[0]
    return Label(step.foreign.receiver, "foreign", "word of-nobody", f" {name}", f"foreign {name}", -11)


def _rest(run, names, step, told):
    """What follows the word of a line of the report."""
    if told.kind == "routed":
        station = str(told.body[0])
        return f" to {station}: {names.body(told.body, station, step.number)}"
    if told.kind in ("exec", "stray"):
        is_short = told.kind == "exec" and len(run.script.ends) > FEW_ENDS
        return "" if is_short else f"{_sender(run, told)} {names.body(told.body, told.who, step.number)}"
    if told.number is None:
        return ""
    event = run.commands.get((told.who, told.number))
    station = event.station if event else None
    if told.kind != "answered":
        return f" {told.number}" + (f" to {station}" if station else "")
    reply = names.body(told.body, told.who, step.number)[len("reply, "):]
    return f" {told.number}" + (f" by {station}" if station else "") + f", {reply}"


def _sender(run, told):
    """The station that a stray reply is from."""
    return f" from {told.body[1]}:" if told.kind == "stray" and run.script.mode == "half" else ""
