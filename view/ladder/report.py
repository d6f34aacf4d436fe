"""The lines of a report."""
from __future__ import annotations

import re
from dataclasses import dataclass

WHO = r"(?P<who>[abm]|[0-9]{1,3})"
HEX = r"(?:[0-9A-F]{2})+"
LINE = re.compile(
    rf"{WHO} (?P<told>sent {HEX}|exec {HEX}|answered [0-9]+ {HEX}|(?:undelivered|unanswered) [0-9]+|stray {HEX}|routed {HEX}"
    r"|repeat|full|damaged|enquiry|dropped)"
)
WORD = re.compile(rf"{WHO} word (?P<file>[0-9]+) (?P<index>[0-9]+) (?P<value>[0-9A-F]{{4}})")
LAST = re.compile(r"deceived (?P<count>[0-9]+)")
TRANSFER = re.compile(rf"pulled {HEX}|pushed [0-9]+|missing [0-9]+|refused [0-9]+ [0-9A-F]{{2}} [0-9A-F]{{2}}|odd [0-9]+")


class NoReport(Exception):
    """Why a text is no report, or no line of one."""


@dataclass(frozen=True)
class Told:
    """What one line tells of an end."""

    who: str
    text: str

    @property
    def kind(self):
        """Its word: `exec`, `repeat`, .."""
        return self.text.split(" ")[0]

    @property
    def sent(self):
        """The bytes of a `sent` line, or None."""
        return bytes.fromhex(self.text[5:]) if self.kind == "sent" else None

    @property
    def body(self):
        """The body that it tells of, or None."""
        return bytes.fromhex(self.text.split(" ")[-1]) if self.kind in ("exec", "answered", "stray", "routed") else None

    @property
    def number(self):
        """The number of the command that it tells of, or None."""
        return int(self.text.split(" ")[1]) if self.kind in ("answered", "undelivered", "unanswered") else None


@dataclass(frozen=True)
class Foot:
    """The end of a report: the words that aren't 0, how often an end was deceived, and, of a rehearsal, what the transfer came to."""

    words: dict[tuple[str, int, int], int]
    deceived: int
    transfer: str | None = None

    def changed(self, first):
        """The words that differ from their first values, each with both; a word that isn't named is 0."""
        names = list(self.words) + [name for name in first if name not in self.words]
        pairs = [(name, first.get(name, 0), self.words.get(name, 0)) for name in names]
        return [pair for pair in pairs if pair[1] != pair[2]]


def read_line(line):
    """What a line of the events tells."""
    match = LINE.fullmatch(line)
    if not match:
        raise NoReport(f"`{line}` is no line of a report")
    return Told(match["who"], match["told"])


def read_report(text):
    """The lines of the events of a whole report, and its foot."""
    lines = text.splitlines()
    transfer = lines.pop() if lines and TRANSFER.fullmatch(lines[-1]) else None
    last = LAST.fullmatch(lines[-1]) if lines else None
    if not last:
        raise NoReport("the report doesn't end with `deceived N`")
    words = {}
    lines.pop()
    for line in lines[::-1]:
        match = WORD.fullmatch(line)
        if not match:
            break
        words[match["who"], int(match["file"]), int(match["index"])] = int(match["value"], 16)
    events = lines[:len(lines) - len(words)]
    return events, Foot(dict(reversed(list(words.items()))), int(last["count"]), transfer)
