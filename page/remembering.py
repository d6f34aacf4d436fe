"""A run of the program piece by piece, of which the pieces that an earlier run began with needn't be run again."""
from __future__ import annotations

from ladder.program import Stepwise


class Remembered:
    """Gives the report's lines of each piece of a script, as Stepwise does. `told` has the pieces so far, each with its lines.

    What a script's pieces tell depends on those before them alone. So as long as the pieces are those that an earlier run had, their lines
    are known; at the first other piece the program is run, and given all that come before at once.
    """

    def __init__(self, program, known):
        self.told = []
        self._program = program
        self._known = known
        self._feed = None

    def __enter__(self):
        return self

    def __exit__(self, *words):
        if self._feed:
            self._feed.__exit__(*words)

    def lines_of(self, piece):
        """The report's lines that the whole lines of a piece make."""
        place = len(self.told)
        if self._feed is None and place < len(self._known) and self._known[place][0] == piece:
            lines = self._known[place][1]
        else:
            if self._feed is None:
                self._feed = Stepwise(self._program.command, self._program.seconds)
                self._feed.lines_of(b"".join(earlier for earlier, _ in self.told))
            lines = self._feed.lines_of(piece)
        self.told.append((piece, lines))
        return lines
