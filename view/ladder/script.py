"""The lines of a script: how the line is set up, and then its events and comments, one by one.

Only scripts that the program read whole are read here, so nothing is judged that the program judges.
"""
from __future__ import annotations

import io
import re
from dataclasses import dataclass, field

from pccc.codes import LETTERS

EVENT = re.compile(r"([abm]|[0-9]{1,9})([ikdxcnt])")
NAMES_A_STATION = "idxcn"


@dataclass(frozen=True)
class Event:
    """An event line: the end that it begins with, the letter of its kind, and what follows; the source that a command names."""

    line: int
    end: str
    kind: str
    station: str | None
    operand: str | None
    source: str | None = None

    @property
    def count(self):
        """How many bytes are given, delivered or lost, or how many ticks come."""
        return int(self.operand or 1)

    @property
    def data(self):
        """The foreign bytes, or the one byte of a mask."""
        return bytes.fromhex(self.operand)

    def text(self, operand=None):
        """The line, with another count or other bytes where they are given."""
        words = [self.end + self.kind, self.station, self.source, operand or self.operand]
        return " ".join(word for word in words if word)


@dataclass(frozen=True)
class Comment:
    """Comment lines that follow one another, as one text, and the number of the first."""

    line: int
    text: str


@dataclass
class Script:
    """How the line is set up: its ends from left to right, the first values of words, the letters of each end's files, and the lines that say so."""

    source: bytes
    mode: str = "full"
    check_size: int = 1
    ends: list[str] = field(default_factory=lambda: ["a", "b"])
    words: dict[tuple[str, int, int], int] = field(default_factory=dict)
    letters: dict[str, dict[int, str]] = field(default_factory=dict)
    settings: dict[str, str] = field(default_factory=dict)
    caption: str = ""
    setup: bytes = b""

    def happenings(self):
        """The events in their order, and the comments behind the first line that is none."""
        begun = False
        for one in _statements(self.source):
            begun = begun or not isinstance(one, Comment)
            if begun and not isinstance(one, list):
                yield one

    @property
    def lines(self):
        """How many lines it has."""
        return self.source.count(b"\n") + (not self.source.endswith(b"\n"))

    def other(self, event):
        """The end at the other side of the queue that an event is about."""
        if self.mode == "full":
            return "b" if event.end == "a" else "a"
        return event.station or "m"

    def receivers(self, end):
        """The ends that the bytes of an end go to."""
        if end == "m":
            return self.ends[1:]
        return ["m"] if self.mode == "half" else [name for name in self.ends if name != end]

    def side(self, end):
        """Which bytes an end gives: those of a full-duplex end, of a master or of a slave."""
        if self.mode == "full":
            return "full"
        return "master" if end == "m" else "slave"


def read_script(source, mode="full"):
    """The script of these bytes, which is of this mode where no line says otherwise: all that its lines before the first event say."""
    script = Script(source, mode, ends=["a", "b"] if mode == "full" else ["m"])
    texts = []
    for one in _statements(source):
        if isinstance(one, Event):
            break
        if isinstance(one, list):
            _take_statement(script, one)
            texts.append(" ".join(one))
        elif not texts:
            script.caption = f"{script.caption} {one.text}".strip()
    script.setup = "".join(text + "\n" for text in texts).encode()
    return script


def _statements(source):
    """The comments, the events, and the words of each other line, up to `end`."""
    comment = None
    for number, line in enumerate(io.BytesIO(source), start=1):
        words = re.split("[ \t]+", line.decode("utf-8", "replace").strip(" \t\r\n"))
        if words[0].startswith("#"):
            text = " ".join(words).lstrip("#").strip()
            comment = Comment(comment.line, f"{comment.text} {text}") if comment else Comment(number, text)
            continue
        if comment:
            yield comment
            comment = None
        if words == ["end"]:
            return
        if words != [""]:
            yield _event(number, words) or words


def _event(number, words):
    """The event of a line, or None."""
    match = EVENT.fullmatch(words[0])
    if not match:
        return None
    end, kind = match.groups()
    rest = words[1:]
    is_station = end not in "abm"
    station = _name(rest.pop(0)) if (end == "m" and kind in NAMES_A_STATION) or (is_station and kind == "i") else None
    source = _name(rest.pop(0)) if kind == "i" and len(rest) > 1 else None
    return Event(number, _name(end), kind, station, rest[0] if rest else None, source)


def _take_statement(script, words):
    """Takes what a line before the events says."""
    if words[0] == "station":
        script.ends.append(_name(words[1]))
    elif words[0] == "word":
        script.words[_name(words[1]), int(words[2]), int(words[3])] = int(words[4], 16)
    elif words[0] == "file":
        script.letters.setdefault(_name(words[1]), {})[int(words[2])] = LETTERS[int(words[3], 16)]
    elif words == ["set", "mode", "half"]:
        script.mode, script.ends = "half", ["m"]
    elif words[0] == "set":
        script.settings[words[1]] = words[2]
        script.check_size = 2 if words[1:] == ["check", "crc"] else script.check_size


def _name(end):
    """The name of an end as the report spells it: a station's number without leading zeros."""
    return str(int(end)) if end.isdigit() else end
