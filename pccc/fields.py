"""The fields of a body: those of the envelope, and behind TNS those of its command."""
from __future__ import annotations

from dataclasses import dataclass, field

from .codes import CUSTOMARY, EXT, LETTERS, STS, TYPES, refusal

REPLY = 0x40

# Behind TNS, by CMD and FNC: the name of a command, and its fields in their order.
COMMANDS = {
    (0x06, 0x00): ("echo", ("data",)),
    (0x06, 0x03): ("status", ()),
    (0x01, None): ("unprotected read", ("byte", "size")),
    (0x08, None): ("unprotected write", ("byte", "data")),
    (0x0F, 0x00): ("range write", ("offset", "total", "levels", "data")),
    (0x0F, 0x01): ("range read", ("offset", "total", "levels", "size")),
    (0x0F, 0x26): ("read-modify-write", ("sets",)),
    (0x0F, 0x67): ("typed write", ("offset", "total", "levels", "parameter", "data")),
    (0x0F, 0x68): ("typed read", ("offset", "total", "levels", "count")),
    (0x0F, 0xA1): ("read", ("size", "two")),
    (0x0F, 0xA2): ("read", ("size", "three")),
    (0x0F, 0xA9): ("write", ("size", "two", "data")),
    (0x0F, 0xAA): ("write", ("size", "three", "data")),
    (0x0F, 0xAB): ("masked write", ("size", "three", "mask", "data")),
}
WITH_FUNCTION = (0x06, 0x0F)


class CutOff(Exception):
    """A field whose bytes end too early, or that can't be read."""


@dataclass(frozen=True)
class Field:
    """A field: its name, the offsets in the body of its first byte and after its last one, and what it says."""

    name: str
    first: int
    after: int
    text: str


@dataclass(frozen=True)
class Place:
    """An address: file, element and sub-element, and the letter of the file's type, or nothing where it isn't known."""

    letter: str
    file: int
    element: int
    sub: int

    def moved(self, offset, unit):
        """The place so many words or elements further on, where it is known how many words an element has; else None."""
        width = TYPES[self.letter][1] if self.letter else 0
        if offset and (width == 0 or (unit == "word" and (width > 1 or self.sub))):
            return None
        return Place(self.letter, self.file, self.element + offset, self.sub)

    def __str__(self):
        names = {number: name for name, number in TYPES[self.letter][2].items()} if self.letter else {}
        sub = f".{names.get(self.sub, self.sub)}" if names or self.sub else ""
        return f"{self.letter}{self.file}:{self.element}{sub}"


@dataclass
class Message:
    """A body that is read: its fields, and behind the envelope what they are, by their kinds. `name` is that of its command.

    `is_whole` says whether all fields of the envelope and of the command were there, and nothing behind them.
    """

    body: bytes
    fields: list[Field] = field(default_factory=list)
    name: str | None = None
    values: dict = field(default_factory=dict)
    is_whole: bool = False

    @property
    def is_reply(self):
        """Whether bit 6 of CMD is set."""
        return len(self.body) > 2 and bool(self.body[2] & REPLY)

    @property
    def tns(self):
        """The TNS."""
        return self.body[4] | self.body[5] << 8

    @property
    def data(self):
        """What follows the envelope, of a reply also behind its EXT STS."""
        return self.body[7 if self.is_reply and self.body[3] == 0xF0 else 6:]


def read_message(body, letters=None):
    """The message of a body. `letters` are those of the files that the station has, by their numbers; without them those that are customary."""
    message = Message(bytes(body))
    reader = _Reader(message, CUSTOMARY if letters is None else letters)
    try:
        reader.envelope()
        reader.reply() if message.is_reply else reader.command()
    except CutOff:
        reader.at = message.fields[-1].after if message.fields else 0
        reader.rest("not readable")
    return message


class _Reader:
    """Reads the fields of one message, from the first byte on."""

    def __init__(self, message, letters):
        self._message = message
        self._body = message.body
        self._letters = letters
        self.at = 0

    def envelope(self):
        """DST, SRC, CMD, STS and TNS."""
        self._field("DST", 1, lambda data: f"to node {data[0]}")
        self._field("SRC", 1, lambda data: f"from node {data[0]}")
        self._field("CMD", 1, self._command_text)
        self._field("STS", 1, self._status_text)
        self._field("TNS", 2, lambda data: f"transaction {data[1]:02X}{data[0]:02X}")

    def _command_text(self, data):
        """What CMD says alone."""
        if data[0] & REPLY:
            return f"reply to CMD {data[0] ^ REPLY:02X}"
        return "FNC follows TNS" if data[0] in WITH_FUNCTION else COMMANDS.get((data[0], None), ("unknown",))[0]

    def _status_text(self, data):
        """What STS says alone."""
        if not data[0]:
            return "done" if self._body[2] & REPLY else "of a command"
        if data[0] == 0xF0:
            return "EXT STS follows TNS"
        return STS.get(data[0] & 0xF0 or data[0], ("", "refused"))[1]

    def reply(self):
        """What follows the envelope of a reply."""
        if self._body[3] == 0xF0:
            self._field("EXT STS", 1, lambda data: EXT.get(data[0], ("", "refused"))[1])
        self._message.is_whole = True
        self.rest("data")

    def command(self):
        """What follows the envelope of a command."""
        command, function = self._body[2], None
        if command in WITH_FUNCTION:
            function = self._take(1)[0]
        name, kinds = COMMANDS.get((command, function), (None, ()))
        if function is not None:
            self._add("FNC", self.at - 1, name or "unknown")
        self._message.name = name
        if name is None:
            return self.rest("data")
        for kind in kinds:
            getattr(self, kind)()
        self._message.is_whole = self.at == len(self._body)
        self.rest("too many bytes")

    def rest(self, name):
        """All bytes that are left, if there are any."""
        if self.at < len(self._body):
            self._field(name, len(self._body) - self.at, lambda data: data.hex(" ").upper())

    def _field(self, name, size, text):
        """Adds a field of so many bytes, which says what `text` makes of them."""
        first = self.at
        self._add(name, first, text(self._take(size)))

    def _add(self, name, first, text):
        """Adds a field from an offset up to what was read."""
        self._message.fields.append(Field(name, first, self.at, text))

    def _take(self, size):
        """So many bytes."""
        data = self._body[self.at:self.at + size]
        if len(data) < size:
            raise CutOff
        self.at += size
        return data

    def _value(self):
        """A value of an address: a byte, or FF and two."""
        first = self._take(1)[0]
        return first if first < 0xFF else int.from_bytes(self._take(2), "little")

    def _number(self, kind, name, size, text):
        """A number of so many bytes."""
        def told(data):
            self._message.values[kind] = int.from_bytes(data, "little")
            return text.format(self._message.values[kind])
        self._field(name, size, told)

    def size(self):
        self._number("size", "SIZE", 1, "{} bytes")

    def byte(self):
        self._number("byte", "ADDRESS", 2, "byte {} of the compatibility file")

    def offset(self):
        self._number("offset", "OFFSET", 2, "the part begins after {}")

    def total(self):
        self._number("total", "TOTAL", 2, "the range has {}")

    def count(self):
        self._number("count", "COUNT", 2, "{} elements")

    def mask(self):
        self._number("mask", "MASK", 2, "{:04X}")

    def two(self):
        self._typed_address(False)

    def three(self):
        self._typed_address(True)

    def _typed_address(self, has_sub):
        """File, type, element, and with three fields the sub-element."""
        first = self.at
        file, kind, element = self._value(), self._take(1)[0], self._value()
        sub = self._value() if has_sub else 0
        self._place(first, Place(LETTERS.get(kind, ""), file, element, sub))

    def levels(self):
        """A mask, and a value for each of its levels."""
        first = self.at
        mask = self._take(1)[0]
        if mask & 0xF0 or mask & 6 != 6:
            raise CutOff
        _area, file, element, sub = [self._value() if mask >> level & 1 else 0 for level in range(4)]
        self._place(first, Place(self._letters.get(file, ""), file, element, sub))

    def _place(self, first, place):
        """A place that was read from an offset on."""
        self._message.values.setdefault("places", []).append(place)
        self._add("address", first, str(place))

    def sets(self):
        """Sets of a level address and two masks."""
        while self.at < len(self._body):
            self.levels()
            self._number("and", "AND", 2, "{:04X}: bits that stay")
            self._number("or", "OR", 2, "{:04X}: bits that are set")
        if not self._message.values:
            raise CutOff

    def parameter(self):
        """A type and a size, and behind those of an array those of its element."""
        first = self.at
        kind, size = self._kind_and_size()
        text = f"kind {kind}, size {size}"
        if kind == 9:
            text = f"an array of {size} bytes, of {'kind {}, size {}'.format(*self._kind_and_size())}"
        self._add("parameter", first, text)

    def _kind_and_size(self):
        """The two numbers of one parameter."""
        flag = self._take(1)[0]
        numbers = []
        for part in (flag >> 4, flag & 0x0F):
            if part & 8 and part & 7 not in (1, 2):
                raise CutOff
            numbers.append(int.from_bytes(self._take(part & 7), "little") if part & 8 else part)
        return numbers

    def data(self):
        """All that follows; behind a place it is words, each with its low byte first."""
        data = self._message.values["data"] = self._body[self.at:]
        if data and len(data) % 2 == 0 and "places" in self._message.values:
            words = [f"{data[at + 1]:02X}{data[at]:02X}" for at in range(0, len(data), 2)]
            self._field("data", len(data), lambda _: " ".join(words))
        self.rest("data")


def typed_data(data):
    """What stands behind the parameter in the data of a reply to a typed read, or None where it can't be read."""
    reader = _Reader(Message(data), {})
    try:
        reader.parameter()
    except CutOff:
        return None
    return data[reader.at:]


def refusal_of(message):
    """Why a reply refuses, in few words and in a sentence, or None where it doesn't, or isn't known."""
    extended = message.body[6] if len(message.body) > 6 else 0
    return refusal(message.body[3], extended) if message.body[3] else None
