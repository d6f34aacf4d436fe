"""The command `df1-ladder`."""
from __future__ import annotations

import argparse
import os
import sys

from .painting import paint
from .program import REPLAY, Anew, Stepwise, Stopped, run_script
from .report import NoReport, read_report
from .run import Misfit, Window, play
from .script import read_script

DESCRIPTION = "Draws the run of a script of `df1 replay`, `df1 route` or `df1 rehearse` as a ladder: one SVG picture that stands alone."

EPILOGUE = """\
The ends are lines from the top down, and time goes downwards, event by event. Each message, response, enquiry, poll and EOT is an
arrow from where it was given to where it arrived: dashed with a cross where bytes of it were lost, red where they were altered,
from beyond the margin where they are foreign. Beside the ends stands what the report tells.

status: 0 the picture is written; 1 the script and its report don't fit, or the program can't be run; 2 these words are none of the
forms; 3 the script is refused, and df1 says why; 4 the script can't be read; 5 the picture can't be written
"""

FITS_NOT, UNREAD, UNWRITTEN = 1, 4, 5


class Failed(Exception):
    """Why there is no picture, where the program didn't say it itself, and the status that the command ends with."""

    def __init__(self, status, note=None):
        super().__init__(note)
        self.status = status
        self.note = note


def main(words, program):
    """Runs the command with these words; `program` is the command line of df1. Answers the status."""
    options = _options(words)
    try:
        name = "standard input" if options.script == "-" else os.path.basename(options.script)
        window = Window(options.first, options.last)
        _write(options.picture, draw(_read(options.script), name, program, window, tuple(options.words.split())))
    except Failed as failure:
        if failure.note:
            print(f"df1-ladder: {failure.note}", file=sys.stderr)
        return failure.status
    return 0


def draw(source, name, program, window=Window(), words=REPLAY):
    """The picture of the run of a script by these words of the program. Raises Failed."""
    try:
        answer = run_script(program, words, source)
        if answer.status != 0:
            raise Failed(answer.status)
        lines, foot = read_report(answer.report)
        with Stepwise(program) if words == REPLAY else Anew(program, words) as feed:
            return paint(play(feed, read_script(source, "half" if words == ("route",) else "full"), window, lines, foot), name)
    except (Misfit, NoReport) as misfit:
        raise Failed(FITS_NOT, str(misfit)) from None
    except Stopped:
        raise Failed(FITS_NOT, "df1 stopped before the end of the script") from None
    except OSError as fault:
        raise Failed(FITS_NOT, f"{program[0]} can't be run: {fault.strerror}") from None


def _options(words):
    """The options that the words give; words of no form end the command with status 2."""
    parser = argparse.ArgumentParser(
        "df1-ladder", description=DESCRIPTION, epilog=EPILOGUE, formatter_class=argparse.RawDescriptionHelpFormatter, allow_abbrev=False
    )
    to_help = "the last line that is drawn; without it, a long run is cut after 400 arrows or 10,000 steps"
    parser.add_argument("script", metavar="SCRIPT", help="the file of the script, or - for standard input")
    as_help = "the words of df1 that run the script: replay, route, or as in --as 'rehearse pull 7 2'; without it, replay"
    parser.add_argument("--as", dest="words", metavar="WORDS", default="replay", help=as_help)
    parser.add_argument("-o", dest="picture", metavar="FILE", help="the file of the picture; without it, standard output")
    parser.add_argument("--from", dest="first", metavar="LINE", type=int, default=1, help="the first line of the script that is drawn")
    parser.add_argument("--to", dest="last", metavar="LINE", type=int, help=to_help)
    options = parser.parse_args(words)
    if options.first < 1 or (options.last is not None and options.last < options.first):
        parser.error("lines are counted from 1, and the last isn't before the first")
    if options.words.split()[:1] not in (["replay"], ["route"], ["rehearse"]):
        parser.error("a script is run by replay, route or rehearse")
    return options


def _read(name):
    """The bytes of a script."""
    try:
        if name == "-":
            return sys.stdin.buffer.read()
        with open(name, "rb") as file:
            return file.read()
    except OSError as fault:
        raise Failed(UNREAD, f"{name} can't be read: {fault.strerror}") from None


def _write(name, picture):
    """Writes the picture to a file, or to standard output."""
    try:
        if name is None:
            sys.stdout.buffer.write(picture.encode())
            sys.stdout.buffer.flush()
            return
        with open(name, "w", encoding="utf-8", newline="\n") as file:
            file.write(picture)
    except OSError as fault:
        raise Failed(UNWRITTEN, f"{name or 'standard output'} can't be written: {fault.strerror}") from None
