"""Addresses as people write them, `N7:0`, `B3:1/5`, `F8:0`, `T4:1.ACC`, the commands that read and write them, and the values in replies."""
import re
import struct

from pccc.codes import TYPES, float_text, refusal

ADDRESS = re.compile(r"([A-Z])(\d{1,3}):(\d{1,4})(?:\.([A-Z]+))?(?:/(\d{1,2}))?(?:,(\d{1,4}))?")
# The most words that one command reads, and writes: with the longest address 13 bytes of a payload's 245 aren't data.
MOST_READ, MOST_WRITTEN = 122, 116


class Wrong(Exception):
    """What was written is no address or no value, and why."""


class Address:
    """A place in a data file, and how many elements from there."""

    def __init__(self, text):
        found = ADDRESS.fullmatch(text.upper())
        if not found or found[1] not in TYPES:
            raise Wrong(f"{text} is no address such as N7:0, N7:0,10, B3:1/5, F8:0 or T4:1.ACC")
        letter, file, element, sub, bit, count = found.groups()
        self.text = text
        self.letter, self.file, self.element = letter, int(file), int(element)
        self.kind, self.width, names = TYPES[letter]
        if sub is not None and sub not in names:
            raise Wrong(f"{text}: a {letter} file has no {sub}" + (f", but {', '.join(names)}" if names else ""))
        self.sub = names.get(sub)
        if names and self.sub is None:
            raise Wrong(f"{text}: say which word, as {letter}{file}:{element}.{list(names)[-1]}")
        self.bit = None if bit is None else int(bit)
        if self.bit is not None and (self.bit > 15 or letter == "F"):
            raise Wrong(f"{text}: a word has the bits 0 to 15, and a float none")
        self.count = 1 if count is None else int(count)
        if self.count == 0 or (self.count > 1 and (self.bit is not None or names)):
            raise Wrong(f"{text}: a count is for whole elements, at least one")

    def words(self):
        """How many words an element has that is read or written."""
        return 2 if self.letter == "F" else 1

    def spelled(self, first):
        """The address of an element, with its sub-element, as a command has it."""
        return _value(self.file) + bytes([self.kind]) + _value(self.element + first) + _value(self.sub or 0)

    def pieces(self, most):
        """The first element, counted from the address, and the number of elements of each command that it takes, of so many words at most."""
        each = most // self.words()
        return [(first, min(each, self.count - first)) for first in range(0, self.count, each)]

    def reads(self):
        """The payloads that read it, CMD first."""
        return [b"\x0f\xa2" + bytes([2 * self.words() * count]) + self.spelled(first) for first, count in self.pieces(MOST_READ)]

    def values(self, data):
        """The values in the data of the replies, one after another."""
        if self.letter == "F":
            return [float_text(data[at:at + 4]) for at in range(0, len(data), 4)]
        words = struct.unpack(f"<{len(data) // 2}H", data)
        if self.bit is not None:
            return [str(words[0] >> self.bit & 1)]
        if self.letter in "SB":
            return [f"{word:016b}" if self.letter == "B" else f"{word:04X}" for word in words]
        return [str(word - (word >> 15 << 16)) for word in words]

    def writes(self, texts):
        """The payloads that write these values to it, CMD first."""
        if self.bit is not None:
            if len(texts) != 1 or texts[0] not in ("0", "1"):
                raise Wrong(f"{self.text}: a bit is 0 or 1")
            mask = 1 << self.bit
            return [b"\x0f\xab\x02" + self.spelled(0) + struct.pack("<HH", mask, mask * int(texts[0]))]
        self.count = len(texts)
        data = b"".join(map(self._word, texts))
        width = 2 * self.words()
        return [
            b"\x0f\xaa" + bytes([width * count]) + self.spelled(first) + data[width * first:width * (first + count)]
            for first, count in self.pieces(MOST_WRITTEN)
        ]

    def _word(self, text):
        try:
            if self.letter == "F":
                return struct.pack("<f", float(text))
            number = int(text, 0)
            return struct.pack("<h" if number < 0 else "<H", number)
        except (ValueError, OverflowError, struct.error):
            raise Wrong(f"{text} is no value of {self.text}") from None


def _value(number):
    return bytes([number]) if number < 255 else b"\xff" + number.to_bytes(2, "little")


def fault_of(reply):
    """What a reply refuses, in words, and None where it refuses nothing."""
    status = reply[3]
    if status == 0:
        return None
    extended = reply[6] if len(reply) > 6 else 0
    codes = f"STS F0, EXT STS {extended:02X}" if status == 0xF0 else f"STS {status:02X}"
    return f"refused, {codes}: {(refusal(status, extended) or ('', 'see the manual of the controller'))[1]}"
