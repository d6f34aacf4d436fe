"""The program `df1`, run on what is written, with bounds on time, on what is kept of its output, and on how many run at once."""
from __future__ import annotations

import contextlib
import subprocess
import tempfile
import threading
from dataclasses import dataclass

SECONDS = 5
AT_ONCE = 4
PIECE = 65536


class Busy(Exception):
    """So many programs run that no further one is begun."""


class Late(Exception):
    """A run took longer than its bound, and was ended."""


@dataclass(frozen=True)
class Run:
    """How a run ended: its status and note, the first bytes of its output, its last bytes, and how long all of it was."""

    status: int
    note: str
    output: bytes
    end: bytes
    size: int

    @property
    def is_whole(self):
        """Whether all of the output was kept."""
        return len(self.output) == self.size


class Program:
    """The program by its command line."""

    def __init__(self, command, seconds=SECONDS, at_once=AT_ONCE):
        self.command = command
        self.seconds = seconds
        self._places = threading.BoundedSemaphore(at_once)

    @contextlib.contextmanager
    def place(self):
        """One of the places of programs that run at once."""
        if not self._places.acquire(timeout=2 * self.seconds):
            raise Busy
        try:
            yield
        finally:
            self._places.release()

    def run(self, words, data, most):
        """Runs the program with these words over an input; of the output so many bytes are kept. Raises Busy, Late or OSError."""
        with self.place(), tempfile.TemporaryFile() as input_, tempfile.TemporaryFile() as note:
            input_.write(data)
            input_.seek(0)
            process = subprocess.Popen([*self.command, *words], stdin=input_, stdout=subprocess.PIPE, stderr=note)
            watch = threading.Timer(self.seconds, process.kill)
            watch.start()
            try:
                output, end, size = _read(process.stdout, most)
                status = process.wait()
            finally:
                is_late = watch.finished.is_set()
                watch.cancel()
                process.kill()
                process.stdout.close()
                process.wait()
            if is_late:
                raise Late
            note.seek(0)
            return Run(status, note.read(PIECE).decode("utf-8", "replace").strip(), output, end, size)


def _read(stream, most):
    """The first bytes of a stream, its last ones, and how many it has."""
    output, end, size = bytearray(), b"", 0
    while piece := stream.read1(PIECE):
        output += piece[:max(0, most - size)]
        end = (end + piece)[-200:]
        size += len(piece)
    return bytes(output), end, size
