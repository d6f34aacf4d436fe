"""Why a script is refused, in the words of docs/FORMATS.md: where each cause comes, and what usually leads to it."""
from __future__ import annotations

import difflib
import re
from dataclasses import dataclass
from pathlib import Path

FORMATS = Path(__file__).resolve().parent.parent / "docs" / "FORMATS.md"
NOTE = re.compile(r"df1: line ([0-9]+): ([a-z]+)")
ROW = re.compile(r"\| `([a-z]+)` \| (.+?) \|$")
HINT = re.compile(r"\| `([a-z]+)` \| `([^`]*)` \| `([^`]*)` \| (.+?) \|$")
CAUSES = "| Cause | Where |"
FORMS = "| Line | Meaning |"
FORM = re.compile(r"\| (`[^|]+`) \| (.+?) \|$")
REFUSED = "<!-- refused after: "
# rows of scripts that aren't replayed
OTHERS = "<!-- refused "

# So much of a script is read for the line that chooses its mode.
HEAD = 65536

# The most lines of what usually leads to a cause that are told, how like the faulty line they have to be, and how much less like than the first.
MOST_HINTS = 2
LEAST_LIKE, MUCH_LESS_LIKE = 0.6, 0.2


@dataclass(frozen=True)
class Hint:
    """What usually leads to a cause: a line as it is written, as it has to be, and why."""

    cause: str
    written: str
    right: str
    why: str


class Causes:
    """The tables of FORMATS: the sentence of each cause, the forms of lines by their first words, and the hints by the mode of their scripts."""

    def __init__(self, text=None):
        self.sentences, self.forms, self.hints = {}, {}, {"full": [], "half": []}
        table = None
        for line in (FORMATS.read_text() if text is None else text).splitlines():
            if line.startswith(REFUSED):
                table = self.hints["half" if "set mode half" in line else "full"]
            elif line.startswith(OTHERS):
                table = None
            elif line in (CAUSES, FORMS):
                table = self.sentences if line == CAUSES else self.forms
            elif line == "" and isinstance(table, dict):
                table = None
            else:
                self._take(table, line)

    def _take(self, table, line):
        """Takes a row of a table, if the line is one."""
        hint, row, form = HINT.fullmatch(line), ROW.fullmatch(line), FORM.fullmatch(line)
        if table is self.sentences and row:
            table[row[1]] = row[2]
        elif table is self.forms and form:
            for spelled in re.findall("`([^`]+)`", form[1]):
                table.setdefault(_word(spelled), []).append({"form": spelled, "meaning": form[2]})
        elif isinstance(table, list) and hint:
            table.append(Hint(*hint.groups()))

    def fault(self, note, source):
        """The fault that a note of the program tells, with its words, or None where it tells none."""
        match = NOTE.fullmatch(note)
        if not match:
            return None
        number, cause = int(match[1]), match[2]
        lines = source.split(b"\n", number)
        line = lines[number - 1][:200].decode("utf-8", "replace").strip() if number <= len(lines) else ""
        hints = [] if cause == "open" else self._likely(cause, line, _mode(source))
        told = [{"written": hint.written, "right": hint.right, "why": hint.why} for hint in hints]
        form = self._form(line) if cause in ("form", "value", "missing") else None
        return {"line": number, "cause": cause, "sentence": self.sentences.get(cause, ""), "hints": told, "form": form}

    def _form(self, line):
        """The form that begins as a line does, of several the one with as many words, or else the first."""
        forms = self.forms.get(_word(line), [None])
        alike = [form for form in forms if form and len(form["form"].split()) == len(line.split())]
        return (alike or forms)[0]

    def _likely(self, cause, line, mode):
        """The hints of a cause whose lines look most like this one, the likeliest first."""
        wanted = _shape(line)
        near = [(difflib.SequenceMatcher(None, wanted, _shape(hint.written)).ratio(), hint) for hint in self.hints[mode] if hint.cause == cause]
        near = sorted((pair for pair in near if pair[0] > LEAST_LIKE), key=lambda pair: -pair[0])
        return [hint for like, hint in near[:MOST_HINTS] if like > near[0][0] - MUCH_LESS_LIKE]


def _word(line):
    """The first word of a line or of a form; S stands for the number of a station."""
    return re.sub("^([0-9]+|s)(?=[a-z]$)", "S", line.split(" ")[0].lower()) if line else ""


def _shape(line):
    """A line without what doesn't tell what is wrong with it: which end and which kind of event with a count it is, and the values of numbers."""
    line = re.sub("^[ab][ktdx](?= |$)", "Ek", line)
    line = re.sub("^[ab](?=[icn](?: |$))", "E", line)
    line = re.sub("^[0-9]+[kdx](?= |$)", "Sk", line)
    return re.sub("[0-9]+", lambda match: "0" * len(match[0]), line)


def _mode(source):
    """The mode that the first line of a script chooses."""
    for line in source[:HEAD].splitlines():
        words = line.split()
        if words and not words[0].startswith(b"#"):
            return "half" if words == [b"set", b"mode", b"half"] else "full"
    return "full"
