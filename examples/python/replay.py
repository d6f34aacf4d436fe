"""Plays a script of `df1 replay` from standard input over ends of the library, and prints the report, for scripts that df1 reads
whole: python3 replay.py FOLDER < SCRIPT, with the folder of the library.

Deceptions are counted with taps, which no line disturbs. A tap is a decoder, a slave or a master of its own, which receives all
that an end sends. So it reports which of these bytes end a message, and the body of that message."""
import collections
import re
import sys

import df1


class FullTap:
    """Receives all that a full-duplex end sends."""

    def __init__(self, library, crc):
        self.good = library.DF1_HEARD_GOOD
        self.decoder = df1.Decoder(library, crc)

    def ended(self, byte):
        """Returns the body of the message that this byte ends, or None."""
        return self.decoder.body() if self.decoder.byte(byte).heard == self.good else None


class HalfTap:
    """Receives all that an end of a half-duplex link sends, with an end of the other kind."""

    def __init__(self, end):
        self.end = end

    def ended(self, byte):
        return self.end.body() if self.end.byte(byte).whole else None


class Plan:
    """What a script says of an end."""

    def __init__(self, node):
        self.settings = {
            "embed": "off", "node": node, "tns": 1, "ack_ticks": 10, "max_naks": 3, "max_enqs": 3, "reply_ticks": 100,
            "max_resends": 3, "poll_ticks": 10, "max_sends": 3, "room": 2, "window": 1, "per_source": 16, "compat": None, "block": "",
        }
        self.files, self.words = [], []

    def number(self, key):
        return int(self.settings[key])

    def made(self, library, link, stations=b""):
        compat = self.settings["compat"]
        node = df1.Node(self.number("node"), self.number("tns"), self.number("reply_ticks"), self.number("room"),
                        compat is not None, int(compat or 0), self.number("window"), self.number("per_source"))
        return df1.End(library, link, node, self.files, self.words, bytes.fromhex(self.settings["block"]), stations)


class Party:
    """An end of the line, and the tap that receives what it sends."""

    def __init__(self, name, end, tap):
        self.name, self.end, self.tap = name, end, tap


class Line:
    """The ends of a line, the bytes on their way between them, and the report so far. A lane goes from one party to another. Each
    of its bytes stands beside the body of the message that it ends, if it ends one."""

    def __init__(self, library):
        self.library = library
        self.mode, self.crc = "full", False
        self.plans = {"a": Plan(0), "b": Plan(1)}
        self.parties, self.lanes = {}, collections.defaultdict(collections.deque)
        self.deceived = 0

    # The lines of the setup.

    def set(self, key, value):
        if key == "mode" and value == "half":
            self.mode, self.plans = value, {"m": Plan(0)}
        elif key == "check":
            self.crc = value == "crc"
        elif key != "mode":
            who, name = key.split(".")
            self.plans[end_name(who)].settings[name] = value

    def station(self, number):
        self.plans[end_name(number)] = Plan(int(number))

    def file(self, who, number, kind, count):
        self.plans[end_name(who)].files.append(df1.File(int(number), int(kind, 16), int(count)))

    def word(self, who, number, index, value):
        self.plans[end_name(who)].words.append(df1.Word(int(number), int(index), int(value, 16)))

    # The ends.

    def start(self):
        """Makes the ends at the first event."""
        stations = bytes(int(name) for name in self.plans if name.isdigit())
        for name, plan in self.plans.items():
            end = plan.made(self.library, self.link(name, plan), stations)
            self.parties[name] = Party(name, end, self.tap(name))

    def link(self, name, plan):
        if name == "m":
            return df1.Master(self.crc, plan.number("ack_ticks"), plan.number("max_resends"), plan.number("poll_ticks"))
        if name.isdigit():
            return df1.Slave(self.crc, plan.number("max_sends"))
        return df1.Duplex(self.crc, plan.settings["embed"] == "on", plan.number("ack_ticks"), plan.number("max_naks"),
                          plan.number("max_enqs"))

    def tap(self, name):
        if self.mode == "full":
            return FullTap(self.library, self.crc)
        link = df1.Slave(self.crc, 1) if name == "m" else df1.Master(self.crc, 1, 0, 1)
        return HalfTap(Plan(0).made(self.library, link))

    # The events.

    def event(self, who, letter, words):
        """Plays an event at the party `who`, or with the bytes from it."""
        party = self.parties[end_name(who)]
        if party.name == "m" and letter in "idxcn":
            others, words = [end_name(words[0])], words[1:]
        elif party.name == "m":
            others = [name for name in self.parties if name != "m"]
        else:
            others = ["m"] if self.mode == "half" else ["b" if party.name == "a" else "a"]
        if letter == "k":
            self.give(party, others, count(words))
        elif letter == "t":
            self.tick(party, count(words))
        else:
            self.link_event(party, self.parties[others[0]], letter, words)

    def link_event(self, party, other, letter, words):
        """Plays an event of a party and one other."""
        lane = self.lanes[party.name, other.name]
        if letter == "i":
            dst = int(other.name) if other.name.isdigit() else self.plans[other.name].number("node")
            party.end.issue(dst, bytes.fromhex(words[-1]), int(words[0]) if len(words) == 2 else None)
        elif letter == "d":
            for _ in range(min(count(words), len(lane))):
                self.arrive(other, *lane.popleft())
        elif letter == "x":
            for _ in range(min(count(words), len(lane))):
                lane.popleft()
        elif letter == "c" and lane:
            lane[0] = (lane[0][0] ^ int(words[0], 16), None)
        elif letter == "n":
            for byte in bytes.fromhex(words[0]):
                self.arrive(other, byte, None)

    def give(self, party, others, times):
        given = bytearray()
        for _ in range(times):
            if party.end.quiet():
                break
            byte = party.end.take()
            if byte is None:
                continue
            given.append(byte)
            ended = party.tap.ended(byte)
            for other in others:
                self.lanes[party.name, other].append((byte, ended))
        if given:
            print(party.name, "sent", given.hex().upper())

    def arrive(self, party, byte, ended):
        """A byte arrives at a party; `ended` is the body of the message that it ends, if it ends one."""
        api, name = self.library, party.name
        step = party.end.byte(byte)
        body = party.end.body()
        self.deceived += step.whole and not (ended == body and self.is_for(party, step, body))
        if step.did != api.DF1_NOT_ACCEPTED:
            told = {api.DF1_EXECUTED: "exec", api.DF1_ANSWERED: f"answered {step.did_command}", api.DF1_STRAY: "stray"}
            print(name, told[step.did], body.hex().upper())
        told = {api.DF1_ACT_REPEAT: "repeat", api.DF1_ACT_REFUSE: "full", api.DF1_ACT_DAMAGED: "damaged"}
        if step.act in told:
            print(name, told[step.act])
        self.tell_news(name, step)

    @staticmethod
    def is_for(party, step, body):
        """Returns whether a message that a slave received names the station to which its body goes; for other ends True."""
        return not party.name.isdigit() or step.station == body[0]

    def tick(self, party, times):
        for _ in range(times):
            turn, gone = party.end.tick()
            if turn.turn == self.library.DF1_TURN_ASK:
                print(party.name, "enquiry")
            self.tell_news(party.name, turn)
            for number in gone:
                print(party.name, "unanswered", number)

    def tell_news(self, name, told):
        if told.news == self.library.DF1_NEWS_UNDELIVERED:
            print(name, "undelivered", told.news_command)
        elif told.news == self.library.DF1_NEWS_DROPPED:
            print(name, "dropped")

    # The end of the report.

    def finish(self):
        widths = {self.library.DF1_TIMER: 3, self.library.DF1_COUNTER: 3, self.library.DF1_CONTROL: 3, self.library.DF1_FLOAT: 2}
        for party in self.parties.values():
            for file in party.end.files():
                for index in range(file.elements * widths.get(file.type, 1)):
                    value = party.end.word(file.number, index)
                    if value:
                        print(party.name, "word", file.number, index, f"{value:04X}")
        print("deceived", self.deceived)


def end_name(word):
    """Returns the name of an end: `003` is station 3."""
    return str(int(word)) if word.isdigit() else word


def count(words):
    return int(words[0]) if words else 1


def main():
    line = Line(df1.Library(sys.argv[1]))
    for text in sys.stdin:
        words = text.split()
        if not words or words[0].startswith("#"):
            continue
        if words[0] in ("set", "station", "file", "word"):
            getattr(line, words[0])(*words[1:])
            continue
        if not line.parties:
            line.start()
        if words[0] == "end":
            line.finish()
            return
        who, letter = re.fullmatch(r"(\d+|[abm])(\w)", words[0]).groups()
        line.event(who, letter, words[1:])


main()
