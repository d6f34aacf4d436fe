"""The library of df1 in Python, by ctypes. A Library is libdf1.so with its df1.h; an End and a Decoder are handles of it. df1.h
says what each call does. A code other than DF1_DONE is raised as Refused, and a number that doesn't fit its C type as
OverflowError. Bytes may be `bytes`, or whatever a memoryview accepts. An End and a Decoder may be used by one thread after
another."""
import ctypes
import operator
import os
import pathlib
import re
import sys
import weakref
from ctypes import POINTER, byref, c_bool, c_char_p, c_size_t, c_void_p
from ctypes import c_uint8 as u8, c_uint16 as u16, c_uint32 as u32
from typing import Any, List, Optional, Sequence, Tuple, Union

Octets = Union[bytes, bytearray, memoryview]

LARGEST = {kind: 2 ** (8 * ctypes.sizeof(kind)) - 1 for kind in (u8, u16, u32, c_size_t)}


def fitting(kind: Any, value: Any, name: str) -> Any:
    """Returns the value if it fits: ctypes would cut a number to the width of `kind`."""
    if kind not in LARGEST:
        return value
    if not 0 <= operator.index(value) <= LARGEST[kind]:
        raise OverflowError(f"{name}: {value} is not in 0 to {LARGEST[kind]}")
    return operator.index(value)


def octets(data: Octets) -> bytes:
    """Returns bytes as ctypes accepts them."""
    return data if isinstance(data, bytes) else memoryview(data).tobytes()


def numbers(values: Sequence[int], name: str) -> Any:
    """Returns words as ctypes accepts them."""
    return (u16 * len(values))(*(fitting(u16, value, name) for value in values))


class Plain(ctypes.Structure):
    """A struct of the header. A number that doesn't fit its member is refused."""

    def __setattr__(self, name, value):
        super().__setattr__(name, fitting(dict(self._fields_).get(name), value, name))


class Handle(ctypes.Structure):
    """A df1_decoder or a df1_end, which starts empty."""
    _fields_ = [("at", c_void_p), ("holds", c_bool)]


class Hearing(Plain):
    _fields_ = [("heard", u32), ("byte", u8), ("station", u8)]


class Duplex(Plain):
    _fields_ = [("crc", c_bool), ("embed", c_bool), ("ack_ticks", u32), ("max_naks", u32), ("max_enqs", u32), ("reserved", u32 * 4)]


class Master(Plain):
    _fields_ = [("crc", c_bool), ("ack_ticks", u32), ("max_resends", u32), ("poll_ticks", u32), ("routes", u32),
                ("reserved", u32 * 3)]


class Slave(Plain):
    _fields_ = [("crc", c_bool), ("max_sends", u32), ("reserved", u32 * 4)]


class Node(Plain):
    _fields_ = [("address", u8), ("tns", u16), ("reply_ticks", u32), ("room", u32), ("has_compat", c_bool), ("compat", u16),
                ("window", u32), ("per_source", u32), ("reserved", u32 * 4)]


class File(Plain):
    _fields_ = [("number", u16), ("type", u8), ("elements", u16)]


class Word(Plain):
    _fields_ = [("file", u16), ("index", u32), ("value", u16)]


class Step(Plain):
    _fields_ = [("act", u32), ("did", u32), ("did_command", u32), ("news", u32), ("news_command", u32), ("whole", c_bool), ("station", u8)]


class Turn(Plain):
    _fields_ = [("turn", u32), ("news", u32), ("news_command", u32), ("gone_count", u32)]


class Transfer(Plain):
    _fields_ = [("state", u32), ("number", u32), ("sts", u8), ("ext", u8)]


class Out(Plain):
    _fields_ = [("there", c_bool), ("byte", u8), ("last", c_bool)]


class State(Plain):
    _fields_ = [("quiet", c_bool), ("holds", c_bool), ("polls", c_bool), ("station", u8)]


class Given(Plain):
    _fields_ = [("length", c_size_t), ("last", c_bool), ("quiet", c_bool)]


class Address(Plain):
    _fields_ = [("type", u8), ("file", u16), ("element", u16), ("sub", u16), ("has_bit", c_bool), ("bit", u8)]


class Answer(Plain):
    _fields_ = [("sts", u8), ("ext", u8), ("data", c_size_t), ("data_length", c_size_t)]


class Typed(Plain):
    _fields_ = [("kind", u16), ("size", u16), ("is_array", c_bool), ("data", c_size_t), ("data_length", c_size_t)]


handle, length = POINTER(Handle), POINTER(c_size_t)
behind = [POINTER(Node), POINTER(File), c_size_t, POINTER(Word), c_size_t, c_char_p, c_size_t, handle]
parameters = {
    "df1_version": [],
    "df1_bcc": [c_char_p, c_size_t],
    "df1_crc": [c_char_p, c_size_t],
    "df1_spell": [c_bool, c_char_p, c_size_t, c_char_p, c_size_t, length],
    "df1_spell_message": [u8, c_bool, c_char_p, c_size_t, c_char_p, c_size_t, length],
    "df1_spell_reply": [c_bool, c_char_p, c_size_t, c_char_p, c_size_t, length],
    "df1_spell_poll": [u8, c_char_p, c_size_t, length],
    "df1_code_text": [u32, c_char_p, c_size_t, length],
    "df1_decoder_make": [c_bool, handle],
    "df1_decoder_make_side": [u32, c_bool, handle],
    "df1_decoder_free": [handle],
    "df1_decoder_byte": [handle, u8, POINTER(Hearing)],
    "df1_decoder_body": [handle, c_char_p, c_size_t, length],
    "df1_duplex_make": [POINTER(Duplex), *behind],
    "df1_master_make": [POINTER(Master), c_char_p, c_size_t, *behind],
    "df1_slave_make": [POINTER(Slave), *behind],
    "df1_end_free": [handle],
    "df1_end_byte": [handle, u8, POINTER(Step)],
    "df1_end_body": [handle, c_char_p, c_size_t, length],
    "df1_end_tick": [handle, POINTER(Turn), POINTER(u32), c_size_t],
    "df1_end_take": [handle, POINTER(Out)],
    "df1_end_quiet": [handle, POINTER(c_bool)],
    "df1_end_state": [handle, POINTER(State)],
    "df1_end_bytes": [handle, c_char_p, c_size_t, length, POINTER(Step)],
    "df1_end_take_bytes": [handle, c_char_p, c_size_t, POINTER(Given)],
    "df1_end_issue": [handle, u8, c_char_p, c_size_t, POINTER(u32)],
    "df1_end_issue_from": [handle, u8, u8, c_char_p, c_size_t, POINTER(u32)],
    "df1_end_outcome": [handle, u32, POINTER(u32)],
    "df1_end_reply": [handle, u32, c_char_p, c_size_t, length],
    "df1_end_pull": [handle, u8, u16, u32, POINTER(u32)],
    "df1_end_push": [handle, u8, u16, c_char_p, c_size_t, POINTER(u32)],
    "df1_end_pulled": [handle, u32, u32, c_char_p, c_size_t, length, POINTER(Transfer)],
    "df1_end_pushed": [handle, u32, u32, POINTER(Transfer)],
    "df1_end_word": [handle, u16, u32, POINTER(u16)],
    "df1_end_set_word": [handle, u16, u32, u16],
    "df1_end_words": [handle, u16, u32, POINTER(u16), c_size_t],
    "df1_end_set_words": [handle, u16, u32, POINTER(u16), c_size_t],
    "df1_end_lock": [handle, POINTER(u16), c_size_t],
    "df1_end_changed": [handle, u16, u32, POINTER(u16), c_size_t, length],
    "df1_end_files": [handle, POINTER(u32)],
    "df1_end_file": [handle, u32, POINTER(File)],
    "df1_address_read": [c_char_p, c_size_t, POINTER(Address)],
    "df1_address_text": [POINTER(Address), c_char_p, c_size_t, length],
    "df1_payload_read": [u32, POINTER(Address), u32, c_char_p, c_size_t, length],
    "df1_payload_write": [u32, POINTER(Address), POINTER(u16), c_size_t, c_char_p, c_size_t, length],
    "df1_payload_masked": [POINTER(Address), u16, POINTER(u16), c_size_t, c_char_p, c_size_t, length],
    "df1_payload_modify": [POINTER(Address), u16, u16, c_char_p, c_size_t, length],
    "df1_payload_bit": [POINTER(Address), c_bool, c_char_p, c_size_t, length],
    "df1_payload_echo": [c_char_p, c_size_t, c_char_p, c_size_t, length],
    "df1_payload_unprotected_read": [u16, u32, c_char_p, c_size_t, length],
    "df1_payload_unprotected_write": [u16, POINTER(u16), c_size_t, c_char_p, c_size_t, length],
    "df1_payload_status": [c_char_p, c_size_t, length],
    "df1_reply_read": [c_char_p, c_size_t, POINTER(Answer)],
    "df1_status_text": [u8, u8, c_char_p, c_size_t, length],
    "df1_typed_read": [c_char_p, c_size_t, POINTER(Typed)],
}


class Refused(Exception):
    """A call returned `code`, which isn't DF1_DONE."""

    def __init__(self, call: str, code: int, text: str):
        super().__init__(f"{call}: {text}")
        self.code = code


def checked(name, types, call):
    """Returns the call with its numbers checked."""
    def with_words(*words):
        if len(words) != len(types):
            raise TypeError(f"{name} takes {len(types)} arguments, and not {len(words)}")
        return call(*(fitting(kind, word, name) for kind, word in zip(types, words)))
    return with_words


def places(folder: Optional[str]) -> List[Tuple[pathlib.Path, pathlib.Path]]:
    """Returns where libdf1.so and df1.h may be: in a folder, else where the environment's DF1_LIBRARY says, else under a prefix."""
    named = folder or os.environ.get("DF1_LIBRARY")
    prefixes = [named] if named else dict.fromkeys([sys.prefix, os.path.expanduser("~/.local"), "/usr/local", "/usr"])
    installed = [(pathlib.Path(prefix, "lib"), pathlib.Path(prefix, "include")) for prefix in prefixes]
    return [(pathlib.Path(named), pathlib.Path(named)), *installed] if named else installed


class Library:
    """libdf1.so and df1.h of a folder or a prefix. By default it is that of the environment's DF1_LIBRARY, else the first that is
    found under Python's own prefix, ~/.local, /usr/local or /usr, where `df1-lib install PREFIX` puts them. Its members are the
    calls, and the numbers that the header names, such as DF1_DONE. A library that is older than its header is refused. If there is
    no library, FileNotFoundError is raised."""

    def __init__(self, folder: Optional[str] = None):
        found = [(lib / "libdf1.so", include / "df1.h") for lib, include in places(folder)]
        at = next(((lib, header) for lib, header in found if lib.exists() and header.exists()), None)
        if at is None:
            raise FileNotFoundError("no libdf1.so with its df1.h: " + ", ".join(str(lib) for lib, _ in found))
        shared = ctypes.PyDLL(str(at[0]))  # which keeps the interpreter's lock: one call at a time
        header = at[1].read_text(encoding="ascii")
        for name, number in re.findall(r"\b(DF1_\w+) = (\w+)", header) + re.findall(r"#define (DF1_VERSION) (\w+)", header):
            setattr(self, name, int(number, 0))
        shared.df1_version.restype = u32
        if shared.df1_version() < self.DF1_VERSION:
            raise OSError(f"{at[0]} is older than {at[1]}")
        for name, types in parameters.items():
            call = getattr(shared, name)
            call.argtypes = types
            call.restype = {"df1_bcc": u8, "df1_crc": u16}.get(name, u32)
            setattr(self, name, checked(name, types, call))

    def __getattr__(self, name: str) -> Any:
        """For type checkers: a name that isn't set above doesn't exist."""
        raise AttributeError(name)

    def text(self, code: int) -> str:
        into, count = ctypes.create_string_buffer(80), c_size_t()
        self.df1_code_text(code, into, 80, byref(count))
        return into.value.decode()

    def do(self, call: str, *words: Any) -> None:
        """Makes a call. A code other than DF1_DONE is raised as Refused."""
        code = getattr(self, call)(*words)
        if code != self.DF1_DONE:
            raise Refused(call, code, self.text(code))

    def bytes(self, call: str, *words: Any, room: int = 509) -> "bytes":
        """Returns the bytes that a call writes into a buffer of `room` bytes."""
        into, count = ctypes.create_string_buffer(room), c_size_t()
        self.do(call, *words, into, room, byref(count))
        return into.raw[: count.value]

    def spell(self, crc: bool, body: Octets) -> "bytes":
        """Returns the full-duplex frame of a body."""
        body = octets(body)
        return self.bytes("df1_spell", crc, body, len(body))

    def spell_message(self, station: int, crc: bool, body: Octets) -> "bytes":
        """Returns a half-duplex master's message to a station."""
        body = octets(body)
        return self.bytes("df1_spell_message", station, crc, body, len(body))

    def spell_reply(self, crc: bool, body: Octets) -> "bytes":
        """Returns a slave's message."""
        body = octets(body)
        return self.bytes("df1_spell_reply", crc, body, len(body))

    def spell_poll(self, station: int) -> "bytes":
        """Returns a half-duplex master's poll of a station."""
        return self.bytes("df1_spell_poll", station)

    def address(self, text: str) -> Address:
        """Returns the address of a text, for example N7:3, F8:0, T4:1.ACC or N7:3/5."""
        letters, address = text.encode(), Address()
        self.do("df1_address_read", letters, len(letters), address)
        return address

    def address_text(self, address: Address) -> str:
        return self.bytes("df1_address_text", address)[:-1].decode()

    def place(self, at: Union[Address, str]) -> Address:
        """Returns an Address unchanged, and a text as the address that it names."""
        return self.address(at) if isinstance(at, str) else at

    def payload_read(self, command: int, at: Union[Address, str], count: int) -> "bytes":
        """Returns the payload that reads words, with DF1_TYPED elements, from an address on; `command` is a df1_command."""
        return self.bytes("df1_payload_read", command, self.place(at), count)

    def payload_write(self, command: int, at: Union[Address, str], words: Sequence[int]) -> "bytes":
        """Returns the payload that writes words from an address on; `command` is a df1_command."""
        return self.bytes("df1_payload_write", command, self.place(at), numbers(words, "words"), len(words))

    def payload_masked(self, at: Union[Address, str], mask: int, words: Sequence[int]) -> "bytes":
        """Returns the payload that writes those bits of words that a mask names, from an address on."""
        return self.bytes("df1_payload_masked", self.place(at), mask, numbers(words, "words"), len(words))

    def payload_modify(self, at: Union[Address, str], and_mask: int, or_mask: int) -> "bytes":
        """Returns the payload that makes a word its old value AND one mask, OR the other."""
        return self.bytes("df1_payload_modify", self.place(at), and_mask, or_mask)

    def payload_bit(self, at: Union[Address, str], on: bool) -> "bytes":
        """Returns the payload that sets the bit of an address, or clears it."""
        return self.bytes("df1_payload_bit", self.place(at), on)

    def payload_echo(self, data: Octets) -> "bytes":
        """Returns the payload that asks for bytes back."""
        data = octets(data)
        return self.bytes("df1_payload_echo", data, len(data))

    def payload_unprotected_read(self, address: int, count: int) -> "bytes":
        """Returns the payload that reads words of a station's compatibility file from a byte on."""
        return self.bytes("df1_payload_unprotected_read", address, count)

    def payload_unprotected_write(self, address: int, words: Sequence[int]) -> "bytes":
        """Returns the payload that writes words to a station's compatibility file from a byte on."""
        return self.bytes("df1_payload_unprotected_write", address, numbers(words, "words"), len(words))

    def payload_status(self) -> "bytes":
        """Returns the payload that asks for the status of a station."""
        return self.bytes("df1_payload_status")

    def reply(self, reply: Octets) -> Tuple[Answer, "bytes"]:
        """Returns what a reply, DST first, says, and its data."""
        reply, answer = octets(reply), Answer()
        self.do("df1_reply_read", reply, len(reply), answer)
        return answer, reply[answer.data : answer.data + answer.data_length]

    def status_text(self, sts: int, ext: int = 0) -> str:
        """Returns the text of STS and EXT STS."""
        return self.bytes("df1_status_text", sts, ext)[:-1].decode()

    def typed(self, data: Octets) -> Tuple[Typed, "bytes"]:
        """Returns what the data of a reply to a typed read is, and the bytes of its words."""
        data, typed = octets(data), Typed()
        self.do("df1_typed_read", data, len(data), typed)
        return typed, data[typed.data : typed.data + typed.data_length]


class Held:
    """What a handle of the library holds. It is freed by `free`, at the end of a `with` block, or when nothing refers to it any
    more, whichever comes first. A call after that is refused with DF1_NO_HANDLE."""

    def __init__(self, library: Library, kind: str, make: str, *words: Any):
        self.library, self.handle = library, Handle()
        library.do(make, *words, self.handle)
        self.free = weakref.finalize(self, library.do, f"df1_{kind}_free", self.handle)

    def __enter__(self) -> Any:
        return self

    def __exit__(self, *raised: Any) -> None:
        self.free()


class Decoder(Held):
    """A decoder of a line with CRCs or with BCCs, by default of a full-duplex one; `side` is a df1_side."""

    def __init__(self, library: Library, crc: bool, side: int = 0):
        super().__init__(library, "decoder", "df1_decoder_make_side", side, crc)

    def byte(self, byte: int) -> Hearing:
        hearing = Hearing()
        self.library.do("df1_decoder_byte", self.handle, byte, hearing)
        return hearing

    def body(self) -> bytes:
        return self.library.bytes("df1_decoder_body", self.handle)


class End(Held):
    """An end, made of its link: a Duplex, a Master with `stations`, or a Slave. `files` are Files, and `words` are Words."""

    def __init__(self, library: Library, link: Union[Duplex, Master, Slave], node: Node, files: Sequence[File] = (),
                 words: Sequence[Word] = (), block: Octets = b"", stations: Octets = b""):
        block, stations = octets(block), octets(stations)
        listed = (stations, len(stations)) if isinstance(link, Master) else ()
        super().__init__(library, "end", f"df1_{type(link).__name__.lower()}_make", link, *listed, node,
                         (File * len(files))(*files), len(files), (Word * len(words))(*words), len(words), block, len(block))

    def byte(self, byte: int) -> Step:
        step = Step()
        self.library.do("df1_end_byte", self.handle, byte, step)
        return step

    def body(self) -> bytes:
        return self.library.bytes("df1_end_body", self.handle)

    def tick(self) -> Tuple[Turn, List[int]]:
        """A tick has passed. Returns what it did, and the numbers of the commands that it left unanswered."""
        turn, gone = Turn(), (u32 * 16)()
        self.library.do("df1_end_tick", self.handle, turn, gone, 16)
        return turn, gone[: turn.gone_count]

    def out(self) -> Out:
        """Takes the next byte to send. Returns whether there is one, the byte, and whether it is the last of a message."""
        out = Out()
        self.library.do("df1_end_take", self.handle, out)
        return out

    def take(self) -> Optional[int]:
        """Takes the next byte to send. Returns it, or None if there is none."""
        out = self.out()
        return out.byte if out.there else None

    def quiet(self) -> bool:
        quiet = c_bool()
        self.library.do("df1_end_quiet", self.handle, quiet)
        return quiet.value

    def state(self) -> State:
        """Returns whether it has nothing to send, whether a message of its own is under way, and which station it polls."""
        state = State()
        self.library.do("df1_end_state", self.handle, state)
        return state

    def hear(self, data: Octets) -> Tuple[int, Step]:
        """Receives the first of these bytes, up to one at which there is something to do, or all. Returns how many, and what the
        last of them did."""
        data, used, step = octets(data), c_size_t(), Step()
        self.library.do("df1_end_bytes", self.handle, data, len(data), used, step)
        return used.value, step

    def take_bytes(self, room: int = 512) -> Tuple[bytes, Given]:
        """Takes the next bytes to send, at most `room` and at most 512, up to the first that ends a message. Returns them, whether
        the last of them ends a message, and whether there are no more."""
        into, given = ctypes.create_string_buffer(max(room, 1)), Given()
        self.library.do("df1_end_take_bytes", self.handle, into, room, given)
        return into.raw[: given.length], given

    def given(self) -> bytes:
        """Takes and returns all bytes that the end has to send."""
        all_given, quiet = b"", self.quiet()
        while not quiet:
            run, given = self.take_bytes()
            all_given, quiet = all_given + run, given.quiet
        return all_given

    def issue(self, dst: int, payload: Octets, src: Optional[int] = None) -> int:
        """Issues a command, with `src` or by default the end's own address as SRC, and returns its number."""
        payload = octets(payload)
        number, words = u32(), (dst, payload, len(payload))
        if src is None:
            self.library.do("df1_end_issue", self.handle, *words, number)
        else:
            self.library.do("df1_end_issue_from", self.handle, src, *words, number)
        return number.value

    def outcome(self, number: int) -> int:
        outcome = u32()
        self.library.do("df1_end_outcome", self.handle, number, outcome)
        return outcome.value

    def reply(self, number: int) -> bytes:
        return self.library.bytes("df1_end_reply", self.handle, number)

    def pull(self, dst: int, file: int, words: int) -> int:
        """Issues the orders of a transfer that reads words of a file, and returns the number of the first."""
        first = u32()
        self.library.do("df1_end_pull", self.handle, dst, file, words, first)
        return first.value

    def push(self, dst: int, file: int, data: Octets) -> int:
        """Issues the orders of a transfer that writes words, two bytes each, to a file, and returns the number of the first."""
        data, first = octets(data), u32()
        self.library.do("df1_end_push", self.handle, dst, file, data, len(data), first)
        return first.value

    def pulled(self, first: int, words: int) -> Tuple[Transfer, bytes]:
        """Returns what a transfer that reads came to so far, and its bytes if it is whole."""
        into, count, came = ctypes.create_string_buffer(6000), c_size_t(), Transfer()
        self.library.do("df1_end_pulled", self.handle, first, words, into, 6000, count, came)
        return came, into.raw[: count.value]

    def pushed(self, first: int, words: int) -> Transfer:
        """Returns what a transfer that writes came to so far."""
        came = Transfer()
        self.library.do("df1_end_pushed", self.handle, first, words, came)
        return came

    def word(self, file: int, index: int) -> int:
        value = u16()
        self.library.do("df1_end_word", self.handle, file, index, value)
        return value.value

    def set_word(self, file: int, index: int, value: int) -> None:
        self.library.do("df1_end_set_word", self.handle, file, index, value)

    def words(self, file: int, first: int, count: int) -> List[int]:
        """Returns the values of a run of words."""
        values = (u16 * count)()
        self.library.do("df1_end_words", self.handle, file, first, values, count)
        return list(values)

    def set_words(self, file: int, first: int, values: Sequence[int]) -> None:
        """Sets a run of words, all of them or none."""
        self.library.do("df1_end_set_words", self.handle, file, first, numbers(values, "values"), len(values))

    def lock(self, files: Sequence[int]) -> None:
        """Locks the data files of these numbers, and unlocks all others: no command of the line may write a locked file."""
        self.library.do("df1_end_lock", self.handle, numbers(files, "files"), len(files))

    def changes(self, file: int, first: int, seen: List[int]) -> List[int]:
        """Returns the places in `seen` whose words, from word `first` of the file on, differ from it. Puts their values there."""
        kept, place, places = numbers(seen, "seen"), c_size_t(), []
        while not places or places[-1] < len(seen):
            self.library.do("df1_end_changed", self.handle, file, first, kept, len(seen), place)
            places.append(place.value)
        seen[:] = kept
        return places[:-1]

    def files(self) -> List[File]:
        """Returns the data files, in their order."""
        count, files = u32(), []
        self.library.do("df1_end_files", self.handle, count)
        for place in range(count.value):
            files.append(File())
            self.library.do("df1_end_file", self.handle, place, files[place])
        return files
