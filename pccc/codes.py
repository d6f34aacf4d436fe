"""The types of data files, and what the status codes of replies mean."""
import struct

# The type byte of a file by its letter, the words of an element, and what its sub-elements are called.
TYPES = {
    "S": (0x84, 1, {}),
    "B": (0x85, 1, {}),
    "T": (0x86, 3, {"CTL": 0, "PRE": 1, "ACC": 2}),
    "C": (0x87, 3, {"CTL": 0, "PRE": 1, "ACC": 2}),
    "R": (0x88, 3, {"CTL": 0, "LEN": 1, "POS": 2}),
    "N": (0x89, 1, {}),
    "F": (0x8A, 2, {}),
}
LETTERS = {kind: letter for letter, (kind, _, _) in TYPES.items()}

# The letters of the files that every controller has, by their numbers.
CUSTOMARY = {2: "S", 3: "B", 4: "T", 5: "C", 6: "R", 7: "N", 8: "F"}

# Each code in few words, and in a sentence.
STS = {
    0x10: ("not understood", "the command or its format is unknown there"),
    0x20: ("host can't communicate", "the host has a problem and will not communicate"),
    0x30: ("host isn't there", "the remote host is missing, disconnected or shut down"),
    0x40: ("hardware fault", "the host couldn't complete the function because of a hardware fault"),
    0x50: ("no such address", "the address is wrong, or the memory is protected"),
    0x60: ("not allowed", "command protection is set so that the function isn't allowed"),
    0x70: ("program mode", "the controller is in program mode"),
    0x80: ("no compatibility file", "there is no compatibility file, or the communication zone has a problem"),
}
EXT = {
    0x01: ("value not allowed", "a field has a value that isn't allowed"),
    0x02: ("too few levels", "the address has too few levels"),
    0x03: ("too many levels", "the address has too many levels"),
    0x06: ("no such element", "there is no such file, element or sub-element"),
    0x07: ("wrong file or size", "the file has the wrong size"),
    0x08: ("not now", "the request can't be completed: the situation has changed since it began"),
    0x09: ("too long", "data or file is too large"),
    0x0A: ("past the end", "the address or the range is past the end of the file"),
    0x0B: ("access denied", "the access is denied"),
    0x11: ("another type", "the data type isn't allowed"),
}


def refusal(status, extended):
    """What a STS that isn't 0 refuses, with the EXT STS behind F0: in few words and in a sentence, or None where it isn't known."""
    if status == 0xF0:
        return EXT.get(extended)
    return STS.get(status & 0xF0 or status)


def float_text(data):
    """The four bytes of a float as a number."""
    return f"{struct.unpack('<f', data)[0]:.7g}"
