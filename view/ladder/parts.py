"""An item on the line part by part: the pairs around a message, its station, its fields and its check, each with its bytes."""
from __future__ import annotations

from dataclasses import dataclass

from pccc.fields import read_message

from .items import ACK, DLE, ENQ, ETX, PAIRS, SOH


@dataclass(frozen=True)
class Part:
    """A part of an item: its name, the places of its first byte and behind its last one among the item's own, and what it says."""

    name: str
    first: int
    after: int
    text: str


def parts_of(side, check_size, data, letters=None):
    """The parts of an item's own bytes, as far as they are there. `letters` are those of the files of the end that it is for."""
    code = data[1] if len(data) > 1 else None
    if len(data) == 2 and code in PAIRS[side]:
        return [Part(f"DLE {PAIRS[side][code].split(',')[0]}", 0, 2, _meaning(side, code))]
    if side == "master" and code == ENQ:
        return _cut(data, [("DLE ENQ", 2, "a poll"), ("station", 1, "the station that is called"), ("check", 1, "BCC")])
    front = [("DLE STX", 2, "the body begins")]
    if side == "master" and code == SOH:
        front = [("DLE SOH", 2, "a message begins"), ("station", 1, "the station that it is for"), *front]
    found = _cut(data, front)
    at = found[-1].after if found else 0
    return found + _body(data, at, check_size, letters)


def _meaning(side, code):
    """What a pair says."""
    if code == ACK:
        return "it was heard"
    if code == ENQ:
        return "asks for the last response again"
    if code == 0x04:
        return "nothing to give"
    return "a reset" if side == "master" else "it was damaged, or there was no room"


def _cut(data, sizes):
    """Parts of these names and sizes one behind another, as far as there are bytes."""
    found, at = [], 0
    for name, size, text in sizes:
        if at < len(data):
            found.append(Part(name, at, min(at + size, len(data)), text))
        at += size
    return found


def _body(data, at, check_size, letters):
    """The fields of a body that begins at a place, the pair behind it and the check."""
    body, places = bytearray(), [at]
    while at < len(data):
        is_pair = data[at] == DLE and at + 1 < len(data)
        if is_pair and data[at + 1] == ETX:
            break
        body.append(data[at])
        at += 2 if is_pair else 1
        places.append(at)
    fields = read_message(bytes(body), letters).fields
    found = [Part(field.name, places[field.first], places[field.after], field.text) for field in fields]
    for part in _cut(data[at:], [("DLE ETX", 2, "the body ends"), ("check", check_size, "BCC" if check_size == 1 else "CRC-16")]):
        found.append(Part(part.name, at + part.first, at + part.after, part.text))
    return found
