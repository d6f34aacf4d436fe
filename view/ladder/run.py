"""The run of a script: which part of which event gave, delivered, lost or altered what, and what the report tells of it.

The events move the bytes, the report's `sent` lines tell which bytes were given, and its other lines what happened. Where these don't
fit, the run is a Misfit, and there is no picture of it.
"""
from __future__ import annotations

from dataclasses import dataclass, field

from .items import Item, NoItem, split_foreign
from .line import Queue, Stream
from .report import Foot, NoReport, Told, read_line
from .script import Comment, Event, Script


class Misfit(Exception):
    """Where the script's events and the report don't fit."""


@dataclass(frozen=True)
class Window:
    """The lines of a script whose events are drawn; where no last one is named, the picture is cut after so many arrows, or so many steps."""

    first: int = 1
    last: int | None = None
    arrows: int = 400
    steps: int = 10000


@dataclass(frozen=True)
class Foreign:
    """Bytes that nobody gave: the item that they are, if they are one, and the end at which they arrive."""

    item: Item | None
    data: bytes
    receiver: str


@dataclass
class Step:
    """A part of an event, played at once: its number in the run, what the report tells of it beside the bytes given, and the places of its lines in the report."""

    number: int
    event: Event
    is_first_part: bool
    told: list[Told] = field(default_factory=list)
    foreign: Foreign | None = None
    command: int | None = None
    reported: range = range(0)
    labels: list = field(default_factory=list)


@dataclass
class Run:
    """A script that was played up to the last line that is drawn: the steps and comments that are drawn, and all bytes.

    `commands` are the events that issued them; `events` has the event of each step, `reported_at` the script's line of each line of the report.
    """

    script: Script
    window: Window
    foot: Foot
    happenings: list[Step | Comment] = field(default_factory=list)
    streams: dict[str, Stream] = field(default_factory=dict)
    queues: dict[tuple[str, str], Queue] = field(default_factory=dict)
    commands: dict[tuple[str, int], Event] = field(default_factory=dict)
    events: list[Event] = field(default_factory=list)
    reported_at: list[int] = field(default_factory=list)
    cut_before: int | None = None

    def __post_init__(self):
        for end in self.script.ends:
            stream = Stream(self.script.side(end), self.script.check_size)
            self.streams[end] = stream
            for receiver in self.script.receivers(end):
                self.queues[end, receiver] = Queue(stream, end, receiver)

    @property
    def steps(self):
        """The steps that are drawn."""
        return [one for one in self.happenings if isinstance(one, Step)]

    @property
    def is_whole(self):
        """Whether the events up to the script's end were played."""
        return self.window.last is None and self.cut_before is None

    def queue(self, event):
        """The queue that an event is about."""
        return self.queues[event.end, self.script.other(event)]


class Player:
    """Plays a script, and keeps what happens in a run."""

    def __init__(self, run, feed):
        self.lines = []
        self._run = run
        self._feed = feed
        self._commands = {}
        self._arrows = 0

    def play(self):
        """Plays the events up to the last that is drawn."""
        run, window = self._run, self._run.window
        self._lines_of(run.script.setup)
        for one in run.script.happenings():
            if window.last is not None and one.line > window.last:
                return
            if window.last is None and (self._arrows >= window.arrows or len(run.happenings) >= window.steps):
                run.cut_before = one.line
                return
            if isinstance(one, Event):
                self._play_event(one)
            elif one.line >= window.first:
                run.happenings.append(one)

    def _play_event(self, event):
        """Plays an event, part by part."""
        for index, (operand, foreign) in enumerate(self._parts(event)):
            lines = self._lines_of(f"{event.text(operand)}\n".encode())
            reported = range(len(self.lines) - len(lines), len(self.lines))
            step = Step(len(self._run.events), event, index == 0, _told(event, lines), foreign, reported=reported)
            self._run.events.append(event)
            self._run.reported_at += [event.line] * len(lines)
            self._move(step, operand)
            if event.line >= self._run.window.first:
                self._run.happenings.append(step)

    def _parts(self, event):
        """What stands in place of the event's operand in each part, and the foreign bytes of the part."""
        if event.kind in "dx":
            return [(str(count), None) for count in self._run.queue(event).cut(event.count)]
        if event.kind == "n":
            script, receiver = self._run.script, self._run.script.other(event)
            items = split_foreign(script.side(event.end), script.check_size, event.data)
            return [(data.hex(), Foreign(item, data, receiver)) for item, data in items]
        return [(event.operand, None)]

    def _lines_of(self, piece):
        """The report's lines of a piece of the script."""
        lines = self._feed.lines_of(piece) if piece else []
        self.lines += lines
        return lines

    def _move(self, step, operand):
        """Moves the bytes of a step, by its kind and by the `sent` line that the report has of it."""
        event = step.event
        speaker = self._run.script.other(event) if event.kind in "dn" else event.end
        for one in step.told:
            if one.who != speaker or event.kind in "ixc" or (one.sent is not None and event.kind != "k"):
                raise _misfit(event, one)
        if event.kind == "k":
            self._give(step)
        elif event.kind in "dx":
            self._run.queue(event).leave(int(operand or 1), step.number, event.kind == "x")
        elif event.kind == "c":
            self._run.queue(event).alter(event.data[0], step.number)
        elif event.kind == "i":
            self._commands[event.end] = step.command = self._commands.get(event.end, 0) + 1
            self._run.commands[event.end, step.command] = event
        elif event.kind == "n":
            self._count_arrows(event, 1)

    def _give(self, step):
        """The bytes of the `sent` line, if there is one, join the queues."""
        event = step.event
        given = [one for one in step.told if one.sent is not None]
        step.told = [one for one in step.told if one.sent is None]
        if not given:
            return
        if len(given) > 1 or len(given[0].sent) > event.count:
            raise _misfit(event, given[-1])
        try:
            ended = self._run.streams[event.end].give(given[0].sent, step.number)
        except NoItem:
            raise _misfit(event, given[0], "; these bytes are no frames, polls and pairs") from None
        self._count_arrows(event, len(ended) * len(self._run.script.receivers(event.end)))

    def _count_arrows(self, event, count):
        """Counts the arrows that an event begins, where it is drawn."""
        if event.line >= self._run.window.first:
            self._arrows += count


def _told(event, lines):
    """What the lines of the report that an event made tell."""
    try:
        return [read_line(line) for line in lines]
    except NoReport as why:
        raise Misfit(f"line {event.line}: {why}") from None


def _misfit(event, told, why=""):
    """That a line of the report doesn't fit the event that made it."""
    return Misfit(f"line {event.line}: `{event.text()}` doesn't fit the report's line `{told.who} {told.text}`{why}")


def play(feed, script, window, lines, foot):
    """The run of a script that the program reported whole as these lines of its events, and this foot; `feed` is one run of it."""
    run = Run(script, window, foot)
    player = Player(run, feed)
    player.play()
    if player.lines != (lines if run.is_whole else lines[:len(player.lines)]):
        raise Misfit("the report of the script isn't that of its events, one by one")
    return run
