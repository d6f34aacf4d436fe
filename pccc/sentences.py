"""A message in few words, as people name it: `write N7:0 = 1234`, `reply, refused: no such element`."""
from __future__ import annotations

from .codes import float_text
from .fields import read_message, refusal_of, typed_data

# The most words of data that a sentence shows.
MOST_WORDS = 3


def sentence(message, asked=None):
    """The message in few words; `asked` is the command that a reply answers, where that is known."""
    if len(message.body) < 6:
        return "short message"
    if message.is_reply:
        return _reply(message, asked)
    if message.name is None:
        return f"unknown command {message.body[2]:02X}" + (f" {message.body[6]:02X}" if len(message.body) > 6 else "")
    if not message.is_whole:
        return f"{message.name}, malformed"
    return f"{message.name}{_object(message)}"


def sentence_of(body, letters=None):
    """The message of a body in few words."""
    return sentence(read_message(body, letters))


def _object(message):
    """What a command is about."""
    values = message.values
    if "places" not in values:
        return _bytes_object(values)
    places = values["places"]
    if message.name == "read-modify-write":
        return " " + ", ".join(map(str, places[:MOST_WORDS])) + (", .." if len(places) > MOST_WORDS else "")
    place, unit = _begin(message)
    text = f" {place or places[0]}" + ("" if place else f" +{values['offset']}")
    if "mask" in values:
        text += f", mask {values['mask']:04X}"
    if "data" in values:
        return text + _equals(places[0], values["data"])
    if "count" in values:
        return text + _several(values["count"], unit)
    count, rest = divmod(values["size"], 4 if unit == "float" else 2)
    return text + (_several(values["size"], "byte") if rest else _several(count, unit))


def _begin(message):
    """The place at which the part begins that a command is about, or None where it isn't known, and what is counted from there."""
    place, offset = message.values["places"][0], message.values.get("offset", 0)
    if message.name.startswith("typed"):
        return place.moved(offset, "element"), "element"
    return place.moved(offset, "word"), "float" if place.letter == "F" and "offset" not in message.values else "word"


def _bytes_object(values):
    """What a command without a place in a file is about."""
    if "byte" in values:
        return f" byte {values['byte']}" + (_equals(None, values["data"]) if "data" in values else _several(values["size"], "byte"))
    return f" {_shown(None, values['data'])}" if values.get("data") else ""


def _several(count, unit):
    """A count that isn't one."""
    return "" if count == 1 else f", {count} {unit}s"


def _equals(place, data):
    """What is written."""
    return f" = {_shown(place, data)}" if data else ""


def _shown(place, data):
    """Data as floats, as words, or where it is no whole words as bytes; how long it is where it is long."""
    if place is not None and place.letter == "F" and len(data) % 4 == 0:
        values, unit = [float_text(data[at:at + 4]) for at in range(0, len(data), 4)], "floats"
    elif place is not None and len(data) % 2 == 0:
        values, unit = [f"{data[at + 1]:02X}{data[at]:02X}" for at in range(0, len(data), 2)], "words"
    else:
        values, unit = [f"{byte:02X}" for byte in data], "bytes"
    return " ".join(values) if len(values) <= MOST_WORDS else f"{len(values)} {unit}"


def _reply(message, asked):
    """A reply: that it is done, with its data, or why it is refused."""
    if message.body[3]:
        why = refusal_of(message)
        codes = f"STS {message.body[3]:02X}" + (f"/{message.body[6]:02X}" if message.body[3] == 0xF0 and len(message.body) > 6 else "")
        return f"reply, refused: {why[0] if why else codes}"
    if not message.data:
        return "reply, done"
    if asked is None or asked.name not in ("read", "range read", "typed read") or not asked.is_whole:
        return f"reply, {_shown(None, message.data)}"
    place, data = _begin(asked)[0], typed_data(message.data) if asked.name == "typed read" else message.data
    return f"reply, {place} = {_shown(place, data)}" if place and data else f"reply, {_shown(None, message.data)}"
