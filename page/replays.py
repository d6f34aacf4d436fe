"""What a script gives: its report, what is wrong with it, its picture, and what the picture's arrows show when they are touched."""
from __future__ import annotations

import threading

from ladder.painting import all_sent, painted
from ladder.program import Stopped
from ladder.report import NoReport, read_report
from ladder.run import Misfit, Window, play
from ladder.script import read_script
from ladder.touch import Touch

from programs import Late
from remembering import Remembered

# A longer script isn't drawn, nor one of a longer report; of such a report this much is shown.
DRAWN_SCRIPT = 2**20
DRAWN_REPORT = 2**22
SHOWN_REPORT = 2**16
WINDOW = Window(arrows=200, steps=2000)


class Replays:
    """Answers scripts, by a program and the causes of its refusals. What the last script gave is kept, for the next one that begins like it."""

    def __init__(self, program, causes):
        self._program = program
        self._causes = causes
        self._lock = threading.Lock()
        self._remembered = []

    def told(self, source, words):
        """What a script gives. `from`, a line, is where its picture begins. Raises Busy, Late, OSError or ValueError."""
        first = int(words.get("from", "1"))
        run = self._program.run(["replay"], source, DRAWN_REPORT)
        fault = self._causes.fault(run.note, source) if run.status == 3 else None
        told = {"status": run.status, "note": run.note, "fault": fault, "report": _head(run), "reportBytes": run.size}
        if run.status not in (0, 3):
            return {**told, "why": f"The program ended with status {run.status}."}
        if len(source) > DRAWN_SCRIPT:
            return {**told, "why": f"A script of {len(source):,} bytes isn't drawn: the most is {DRAWN_SCRIPT:,}."}
        if not run.is_whole:
            return {**told, "why": f"A script with a report of {run.size:,} bytes isn't drawn: the most is {DRAWN_REPORT:,}."}
        try:
            return {**told, **self._drawn(source, fault, run, first)}
        except (Misfit, NoReport) as misfit:
            return {**told, "why": f"No picture: {misfit}."}
        except (Stopped, Late):
            return {**told, "why": "No picture: the program ended too early, or took too long."}

    def _drawn(self, source, fault, run, first):
        """The picture of a script, of one that is refused that of the lines before the fault."""
        drawn = source
        if fault:
            drawn = _before(source, fault)
            run = self._program.run(["replay"], drawn, DRAWN_REPORT)
            if run.status != 0:
                return {"why": "There is no run before the faulty line to draw."}
        lines, foot = read_report(run.output.decode("ascii", "replace"))
        with self._lock:
            known = self._remembered
        window = Window(first, arrows=WINDOW.arrows, steps=WINDOW.steps)
        with self._program.place(), Remembered(self._program, known) as feed:
            try:
                played = play(feed, read_script(drawn), window, lines, foot)
            finally:
                with self._lock:
                    self._remembered = feed.told
        sent = all_sent(played)
        picture = painted(played, "", sent, has_keys=True)
        upto = fault["line"] - 1 if fault else None
        return {"picture": picture, "upTo": upto, "arrows": Touch(played, sent).arrows(), "reportedAt": played.reported_at, "cutBefore": played.cut_before}


def _before(source, fault):
    """The script of the lines before a fault."""
    lines = source.split(b"\n")[:fault["line"] - 1]
    return b"\n".join(lines if fault["cause"] == "after" else [*lines, b"end"]) + b"\n"


def _head(run):
    """The first lines of a report."""
    text = run.output[:SHOWN_REPORT].decode("ascii", "replace")
    return text if run.size <= SHOWN_REPORT else text[:text.rfind("\n") + 1]
