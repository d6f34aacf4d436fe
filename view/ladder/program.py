"""The program, run over a whole script, or over a script that comes piece by piece."""
from __future__ import annotations

import fcntl
import os
import select
import struct
import subprocess
import termios
import time
from dataclasses import dataclass

from .report import read_report

REPLAY = ("replay",)


class Stopped(Exception):
    """The program ended before it had taken all of a script that it had read whole before."""


@dataclass(frozen=True)
class Answer:
    """How a run of the program ended, and what it reported. Its note went where this program's notes go."""

    status: int
    report: str


def run_script(program, words, source):
    """Runs the program with these words over a whole script."""
    run = subprocess.run([*program, *words], input=source, stdout=subprocess.PIPE, check=False)
    return Answer(run.returncode, run.stdout.decode("ascii", "replace"))


class Stepwise:
    """A run of the program that is given its script piece by piece, to see which lines of the report each piece makes.

    The program replays a script while it reads it: what the lines that it took make is written before it takes more. It is Stopped where
    so many seconds have passed.
    """

    def __init__(self, program, seconds=None):
        self._until = None if seconds is None else time.monotonic() + seconds
        self._process = subprocess.Popen(
            [*program, "replay"], stdin=subprocess.PIPE, stdout=subprocess.PIPE, stderr=subprocess.DEVNULL, bufsize=0
        )
        self._told = b""

    def __enter__(self):
        return self

    def __exit__(self, *_):
        if self._until is not None:
            self._process.kill()
        self._process.stdin.close()
        self._process.stdout.close()
        self._process.wait()

    def lines_of(self, piece):
        """The report's lines that the whole lines of a piece make."""
        self._put(piece)
        self._put(b" ")  # a blank before the next line: it is taken after all that the piece made is written
        self._read()
        lines = self._told.decode("ascii", "replace").splitlines()
        self._told = b""
        return lines

    def _put(self, piece):
        """Writes a piece, and waits until the program has taken all of it."""
        try:
            self._process.stdin.write(piece)
        except BrokenPipeError:
            raise Stopped from None
        while _waiting(self._process.stdin) > 0:
            self._read(0.0001)
            if self._process.poll() is not None or (self._until is not None and time.monotonic() > self._until):
                raise Stopped

    def _read(self, seconds=0.0):
        """Reads what the program has written, waiting so long for a first byte."""
        while select.select([self._process.stdout], [], [], seconds)[0]:
            piece = os.read(self._process.stdout.fileno(), 65536)
            if not piece:
                raise Stopped
            self._told += piece
            seconds = 0.0


class Anew:
    """Runs the program anew at each piece of a script, over all pieces so far, to see which lines of the report the piece makes.

    So it sees that of words by which the program reads a script whole before it writes anything.
    """

    def __init__(self, program, words):
        self._program = program
        self._words = words
        self._source = b""
        self._lines = []

    def __enter__(self):
        return self

    def __exit__(self, *_):
        pass

    def lines_of(self, piece):
        """The report's lines that the whole lines of a piece make."""
        self._source += piece
        answer = run_script(self._program, self._words, self._source + b"end\n")
        if answer.status != 0:
            raise Stopped
        before, self._lines = self._lines, read_report(answer.report)[0]
        if self._lines[:len(before)] != before:
            raise Stopped
        return self._lines[len(before):]


def _waiting(pipe):
    """How many bytes wait in a pipe."""
    return struct.unpack("i", fcntl.ioctl(pipe, termios.FIONREAD, bytes(4)))[0]
