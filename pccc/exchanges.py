"""Messages one after another: a reply is named by the command that it answers."""
from __future__ import annotations

from .fields import REPLY
from .sentences import sentence


class Exchanges:
    """The commands of a line so far, each with when it was begun: a number that rises."""

    def __init__(self):
        self._commands = {}

    def keep(self, message, when=0):
        """Keeps a command, for the replies to it; another message isn't kept."""
        if len(message.body) >= 6 and not message.is_reply:
            self._commands.setdefault(_key(message), []).append((when, message))

    def name(self, message, when=float("inf")):
        """The message in few words, a reply by the last command with its key that was begun before then."""
        if len(message.body) < 6 or not message.is_reply:
            return sentence(message)
        before = [command for begun, command in self._commands.get(_key(message), []) if begun <= when]
        return sentence(message, before[-1] if before else None)


def _key(message):
    """What a command and its reply have in common."""
    target, source, command = message.body[:3]
    return (message.tns, command & ~REPLY, *((source, target) if message.is_reply else (target, source)))
