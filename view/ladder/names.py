"""What the messages of a run are called, as people name them; a reply by the command that it answers, where that went over the line."""
from __future__ import annotations

from pccc.exchanges import Exchanges
from pccc.fields import read_message


class Names:
    """Reads the messages of one run, each with the letters of the files of the end that it is for."""

    def __init__(self, run):
        self._script = run.script
        self._exchanges = Exchanges()
        found = [(step.number, step.foreign.item, step.foreign.receiver) for step in run.steps if step.foreign and step.foreign.item]
        for sender, stream in run.streams.items():
            found += [(stream.step_of(item.first), item, self._receiver(sender, item)) for item in stream.items]
        for step, item, receiver in sorted((one for one in found if one[1].body is not None), key=lambda one: one[0]):
            self._exchanges.keep(self._message(item.body, receiver), step)

    def item(self, item, sender, step):
        """The name of what an end began in a step, and the message that it is, if it is one."""
        return self._named(item, self._receiver(sender, item), step)

    def foreign(self, foreign, step):
        """The name of foreign bytes, and the message that they are, if they are one."""
        if foreign.item is None:
            return foreign.data.hex(" ").upper(), None
        return self._named(foreign.item, foreign.receiver, step)

    def body(self, body, end, step):
        """The name of a body that an end took in a step."""
        return self._exchanges.name(self._message(body, end), step)

    def _named(self, item, receiver, step):
        """The name of an item, and its message."""
        if item.body is None:
            return item.name, None
        message = self._message(item.body, receiver)
        return self._exchanges.name(message, step), message

    def _message(self, body, end):
        """The message of a body that is for an end."""
        return read_message(body, self._script.letters.get(end, {}))

    def _receiver(self, sender, item):
        """The end that an item is for."""
        return item.station or next(iter(self._script.receivers(sender)), sender)
