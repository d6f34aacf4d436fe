"""What must be in the picture of each example."""
import unittest

from seen import EXAMPLES, TOP, Seen, picture


def named(name, tns=1, way="a>b"):
    """An arrow of a message."""
    return f"{way} {name}, TNS {tns:04X}"


def exchange(name, reply, tns):
    """The four arrows of an ordinary exchange."""
    return [named(name, tns), "b>a ACK", named(f"reply, {reply}", tns, "b>a"), "a>b ACK"]


# how many bytes of a thing are lost on its way to a dead station
SIZES = {"poll": 4, "ACK": 2, "echo": 16, "reply,": 15}


def to_each(stations, *names, dead=None):
    """The arrows of what a master gives to its stations, one thing after another."""
    lost = {name: "; {0} of {0} bytes lost".format(SIZES.get(name.split(" ")[0])) for name in names}
    return [f"m>{station} {name}{lost[name] if station == dead else ''}" for name in names for station in stations]


def turns():
    """The arrows of eleven commands for one of three stations, and of twelve rounds of polls."""
    arrows = [*to_each("123", "poll 1"), "1>m EOT"]
    for tns in range(1, 12):
        arrows += [*to_each("123", f"echo, TNS {tns:04X}"), "1>m ACK"]
    for round in range(1, 13):
        for station in "231":
            replies = station == "1" and round < 12
            arrows += [*to_each("123", f"poll {station}"), f"1>m reply, done, TNS {round:04X}" if replies else f"{station}>m EOT"]
            arrows += to_each("123", "ACK to 1") if replies else []
    return arrows


WRITE = named("write N7:0 = 1234")
ACKS = ["b>a ACK", named("reply, done", 1, "b>a"), "a>b ACK"]
ECHO = "echo 55, TNS 0001"
ECHOED = "reply, 55, TNS 0001"

WRITTEN, DONE = "write N7:0 = 1234, TNS 0001", "reply, done, TNS 0001"
AA, AA_REPLY, BB, BB_REPLY = "echo AA, TNS 0001", "reply, AA, TNS 0001", "echo BB, TNS 0001", "reply, BB, TNS 0001"
LATER, LATER_REPLY = "echo BB, TNS 0064", "reply, BB, TNS 0064"
BOTH = ("240", "3")
NOTHING_TO_GIVE = [*to_each("543", "poll 3"), "3>m EOT", *to_each("543", "poll 4"), "4>m EOT"]

ARROWS = {
    "ack-turned-into-nak": [WRITE, "b>a ACK; byte 2: 06 → 15", WRITE, *ACKS],
    "after-a-lost-write": [f"{WRITE}; 1 of 19 bytes lost", "b>a NAK", *exchange("write N7:1 = 5678", "done", 2)],
    "answer-beside-a-cut-off-poll": [
        *to_each(BOTH, "echo, TNS 00BA"), "240>m ACK", "m>240 poll 240; 1 of 4 bytes lost", "m>3 poll 240",
        *to_each(BOTH, "echo, TNS 00BB"), "3>m ACK", "240>m reply, done, TNS 00BA", "m>3 poll 3", "m>240 poll 3", "3>m reply, done, TNS 00BB",
        *to_each(BOTH, "ACK to 3", "echo, TNS 00BC"), "3>m ACK", *to_each(BOTH, "poll 240"), "240>m EOT",
        *to_each(BOTH, "poll 3"), "3>m reply, done, TNS 00BC", *to_each(BOTH, "ACK to 3"),
    ],
    "askers-with-one-tns": [
        *to_each("543", "poll 3"), f"3>m {AA}", *to_each("543", "ACK to 3", AA), "5>m ACK",
        *to_each("543", "poll 4"), f"4>m {BB}", *to_each("543", "ACK to 4", BB), "5>m ACK",
        *to_each("543", "poll 5"), f"5>m {AA_REPLY}", *to_each("543", "ACK to 5", AA_REPLY), "3>m ACK", *NOTHING_TO_GIVE,
        *to_each("543", "poll 5"), f"5>m {BB_REPLY}", *to_each("543", "ACK to 5"),
    ],
    "askers-with-tns-apart": [
        *to_each("543", "poll 3"), f"3>m {AA}", *to_each("543", "ACK to 3", AA), "5>m ACK",
        *to_each("543", "poll 4"), f"4>m {LATER}", *to_each("543", "ACK to 4", LATER), "5>m ACK",
        *to_each("543", "poll 5"), f"5>m {AA_REPLY}", *to_each("543", "ACK to 5", AA_REPLY), "3>m ACK", *NOTHING_TO_GIVE,
        *to_each("543", "poll 5"), f"5>m {LATER_REPLY}", *to_each("543", "ACK to 5", LATER_REPLY), "4>m ACK",
    ],
    "both-ends-at-once": [
        WRITE, f"b>a {ECHO}", "b>a ACK, embedded", "a>b ACK", f"a>b {ECHOED}", "b>a reply, done, TNS 0001", "a>b ACK, embedded", "b>a ACK",
    ],
    "byte-becomes-dle": ["a>b echo 03, TNS 0001; byte 9: 00 → 10", "b>a NAK"],
    "compatibility-file": [
        *exchange("status", "01 02", 1), *exchange("unprotected read byte 2, 2 bytes", "78 56", 2),
        *exchange("unprotected write byte 2 = CD AB", "done", 3),
        *exchange("unprotected read byte 32, 2 bytes", "refused: no such address", 4),
    ],
    "crc": exchange("echo 55", "55", 1),
    "damage-both-ways": [
        f"{WRITE}; byte 3: 01 → 00", "b>a NAK", f"{WRITE}; byte 6: 00 → FF, byte 6: FF → 0F", "b>a NAK", WRITE, "b>a ACK",
        "b>a reply, done, TNS 0001; byte 3: 00 → 80", "a>b NAK", *ACKS[1:],
    ],
    "damage-that-bcc-misses": [f"{WRITE}; byte 15: 34 → 35, byte 16: 12 → 11", *ACKS],
    "damage-that-crc-catches": [f"{WRITE}; byte 15: 34 → 35, byte 16: 12 → 11", "b>a NAK", WRITE, *ACKS],
    "damage-with-two-out": [
        f"{WRITE}; byte 3: 01 → 00", "b>a NAK", WRITE, "b>a ACK",
        f"{named('write N7:1 = 5678', 2)}; byte 6: 00 → FF", "b>a NAK", named("write N7:1 = 5678", 2),
        "b>a reply, done, TNS 0001; byte 5: 4F → CF", "a>b NAK", "b>a ACK",
        named("reply, done", 1, "b>a"), "a>b ACK", named("reply, done", 2, "b>a"), "a>b ACK",
    ],
    "damaged-etx": [f"{WRITE}; byte 18: 03 → 01", "b>a NAK"],
    "damaged-frame-and-lost-nak": [
        f"{WRITE}; byte 3: 01 → 00", "b>a NAK; 2 of 2 bytes lost", "a>b ENQ", "b>a NAK", WRITE, *ACKS
    ],
    "damaged-message": [f"m>3 {ECHO}; byte 6: 03 → 02"],
    "dead-station-between": [
        *to_each("543", "poll 3", dead="4"), f"3>m {AA}", *to_each("543", "ACK to 3", AA, dead="4"), *to_each("543", AA, dead="4"),
        *to_each("543", "poll 4", dead="4"), *to_each("543", "poll 5", dead="4"), f"5>m {BB}",
        *to_each("543", "ACK to 5", BB, dead="4"), "3>m ACK", *to_each("543", "poll 3", dead="4"), f"3>m {BB_REPLY}",
        *to_each("543", "ACK to 3", BB_REPLY, dead="4"), "5>m ACK",
    ],
    "deception-on-purpose": ["foreign>b write N7:0 = 1234"],
    "dle-left-over": [*exchange("echo", "done", 1), "foreign>b 10", named("echo", 2), "a>b ENQ", "b>a ACK"],
    "echo-after-noise": [*exchange("echo", "done", 1), "foreign>b 10", named("echo", 2), "a>b ENQ", "b>a ACK", *exchange("echo", "done", 3)],
    "echo-first": [
        "foreign>b echo", "b>a ACK", "b>a reply, done, TNS 0001", "a>b ACK", named("echo 55"), "b>a ACK", *exchange("write N7:0 = 1234", "done", 2),
    ],
    "embedding": [WRITE, f"b>a {ECHO}", "a>b ACK, embedded"],
    "enqs-run-out": [
        WRITE, "b>a ACK; 2 of 2 bytes lost", "a>b ENQ", "b>a ACK; 2 of 2 bytes lost", "b>a reply, done, TNS 0001", "a>b ACK"
    ],
    "fair-sources": [
        named("echo 51"), "b>a ACK", named("echo 91", 4), "b>a ACK", named("reply, 51", 1, "b>a"), "a>b ACK",
        named("echo 52", 2), "b>a ACK", named("reply, 91", 4, "b>a"),
    ],
    "foreign-ack": [f"{WRITE}; byte 3: 01 → 00", "foreign>a ACK", "b>a NAK"],
    "foreign-frame": ["foreign>b write N7:0 = 1234", *ACKS],
    "foreign-reset": [f"m>3 {ECHO}", "3>m ACK", "foreign>3 NAK, a reset", "m>3 poll 3", "3>m EOT"],
    "held-after-unanswered": [f"{named('echo')}; 12 of 12 bytes lost", "foreign>a NAK", named("echo")],
    "key-of-a-deception": ["foreign>b echo", *ACKS, named("echo 55"), "b>a ACK"],
    "late-before-its-retry": [
        WRITE, named("write N7:0 = 1234", 2), "b>a ACK", named("reply, done", 1, "b>a"), "a>b ACK", named("reply, done", 2, "b>a"), "a>b ACK",
    ],
    "late-reply": exchange("echo 55", "55", 1),
    "limits-passed": [f"{WRITE}; 19 of 19 bytes lost", "foreign>a NAK"],
    "lost-ack": [WRITE, "b>a ACK; 2 of 2 bytes lost", "a>b ENQ", *ACKS],
    "lost-frame": [f"{WRITE}; 19 of 19 bytes lost"],
    "masked-write": [
        *exchange("masked write N7:0, mask 00FF = ABCD", "done", 1), *exchange("read N7:0, 2 words", "N7:0 = 12CD 5678", 2)
    ],
    "nak-turned-into-ack": [f"{WRITE}; byte 3: 01 → 00", "b>a NAK; byte 2: 15 → 06"],
    "no-room": [named("echo 55", 1), "b>a ACK", named("echo 55", 2), "b>a ACK", named("echo 55", 3), "b>a NAK; under way"],
    "one-hit-too-many": [f"{WRITE}; byte 3: 01 → 00", "b>a NAK"],
    "one-write": [WRITE],
    "ordinary-exchange": [WRITE, *ACKS],
    "outcome-at-the-last-tick": [
        f"{named('echo')}; under way", "foreign>a ACK", named("echo", 1, "b>a"), "a>b ACK; under way", f"{named('reply, done')}; under way",
        "a>b ENQ; under way", "foreign>a NAK", f"{named('reply, done')}; under way", f"{named('echo', 2)}; under way", "foreign>a ACK",
    ],
    "noise-on-a-shared-line": [
        "foreign>3 10", *to_each("35", "write N7:0 = 1234, TNS 0001"),
        *to_each("35", "write N7:1 = 5678, TNS 0002"), "3>m ACK",
        *to_each("35", "poll 3"), "3>m reply, done, TNS 0002", *to_each("35", "ACK to 3"), *to_each("35", "poll 5"), "5>m EOT",
        *to_each("35", "echo 51, TNS 0003"), "5>m ACK", *to_each("35", "poll 3"), "3>m EOT",
        *to_each("35", "poll 5"), "5>m reply, 51, TNS 0003", *to_each("35", "ACK to 5"),
    ],
    "polled-after-a-lost-write": [
        "m>3 write N7:0 = 1234, TNS 0001; 1 of 22 bytes lost", "m>3 write N7:1 = 5678, TNS 0002", "3>m ACK",
        "m>3 poll 3", "3>m reply, done, TNS 0002", "m>3 ACK to 3",
    ],
    "polled-dle-left-over": ["foreign>3 10", f"m>3 {ECHO}"],
    "polled-write-after-noise": [
        "foreign>3 10", "m>3 write N7:0 = 1234, TNS 0001", "m>3 write N7:1 = 5678, TNS 0002", "3>m ACK",
        "m>3 poll 3", "3>m reply, done, TNS 0002", "m>3 ACK to 3", "m>3 write N7:2 = 9ABC, TNS 0003", "3>m ACK",
        "m>3 poll 3", "3>m reply, done, TNS 0003", "m>3 ACK to 3",
    ],
    "polled-write": [
        "m>3 write N7:0 = 1234, TNS 0001", "m>5 write N7:0 = 1234, TNS 0001", "3>m ACK",
        "m>3 poll 3", "m>5 poll 3", "3>m reply, done, TNS 0001; 11 of 11 bytes lost",
        "m>3 poll 5", "m>5 poll 5", "5>m EOT",
        "m>3 poll 3", "m>5 poll 3", "3>m reply, done, TNS 0001", "m>3 ACK to 3", "m>5 ACK to 3",
    ],
    "refused-second-set": [
        *exchange("read-modify-write N7:0, N7:16", "refused: past the end", 1), *exchange("read N7:0", "N7:0 = 3456", 2),
        *exchange("read-modify-write N7:0", "done", 3),
    ],
    "refused-writes": [
        *exchange("write N9:0 = 1234", "refused: no such element", 1), *exchange("write N7:16 = 1234", "refused: past the end", 2),
        *exchange("write F7:0 = 1234", "refused: another type", 3),
        *exchange("unknown command 0F 99", "refused: not understood", 4),
    ],
    "rehearsed-pull": exchange("range read N7:0, 2 words", "N7:0 = 1234 5678", 1),
    "rehearsed-pull-cut": [
        *exchange("range read N7:0, 100 words", "N7:0 = 100 words", 1), f"{named('range read N7:100', 2)}; 20 of 20 bytes lost",
    ],
    "rehearsed-pull-deceived": [
        named("range read N7:0, 2 words"), "b>a ACK",
        f"{named('reply, N7:0 = 1234 5678', 1, 'b>a')}; byte 9: 34 → 35, byte 11: 78 → 77", "a>b ACK",
    ],
    "rehearsed-pull-refused": exchange("range read 9:0, 2 words", "refused: no such element", 1),
    "rehearsed-push": exchange("range write N7:0 = 1234", "done", 1),
    "relayed-write": [
        *to_each("53", "poll 3"), f"3>m {WRITTEN}", *to_each("53", "ACK to 3", WRITTEN), "5>m ACK",
        *to_each("53", "poll 5"), f"5>m {DONE}", *to_each("53", "ACK to 5", DONE), "3>m ACK",
    ],
    "relayed-write-repeated": [
        *to_each("53", "poll 3"), f"3>m {WRITTEN}", *to_each("53", "ACK to 3", WRITTEN), "5>m ACK; 2 of 2 bytes lost",
        *to_each("53", WRITTEN), "5>m ACK", *to_each("53", "poll 5"), f"5>m {DONE}", *to_each("53", "ACK to 5", DONE), "3>m ACK",
    ],
    "repeat-after-lost-ack": [
        f"m>3 {ECHO}", "3>m ACK", "m>3 poll 3", f"3>m {ECHOED}", "m>3 ACK to 3; 2 of 2 bytes lost",
        "m>3 poll 3", f"3>m {ECHOED}", "m>3 ACK to 3", "m>3 poll 3", "3>m EOT",
    ],
    "replies-of-one-tns": [
        f"m>3 {ECHO}", f"m>5 {ECHO}; 16 of 16 bytes lost", "3>m ACK",
        "m>3 poll 3", "m>5 poll 3; 4 of 4 bytes lost", f"3>m {ECHOED}",
        "m>3 ACK to 3; 2 of 2 bytes lost", "m>5 ACK to 3; 2 of 2 bytes lost", "foreign>5 echo 77",
        "m>3 poll 5; 4 of 4 bytes lost", "m>5 poll 5", "5>m ACK; 2 of 2 bytes lost", "5>m reply, 77, TNS 0001",
        "m>3 ACK to 5; 2 of 2 bytes lost", "m>5 ACK to 5", "m>3 poll 3", "m>5 poll 3; 4 of 4 bytes lost", f"3>m {ECHOED}",
    ],
    "replies-go-first": [
        named("echo", 1, "b>a"), "a>b ACK", named("reply, done"), "b>a ACK", named("echo", 2, "b>a"), "a>b ACK", named("reply, done", 2), "b>a ACK",
        f"{named('echo')}; under way",
    ],
    "reset": [
        f"m>3 {ECHO}", "3>m ACK", "m>3 poll 3", f"3>m {ECHOED}; 12 of 12 bytes lost", "foreign>3 NAK, a reset", "m>3 poll 3", "3>m EOT",
    ],
    "restarted-controller": [f"{WRITE}; 19 of 19 bytes lost", "a>b ENQ", "b>a NAK", WRITE, *ACKS],
    "restarted-end": [
        "foreign>b echo", "b>a ACK", "b>a reply, done, TNS 0001", "a>b ACK", named("echo 55"), "b>a ACK",
    ],
    "sender-still-waits": [f"{named('echo', 1, 'b>a')}; 12 of 12 bytes lost", named("echo"), "b>a ACK"],
    "silent-station": [f"m>9 {ECHO}; 16 of 16 bytes lost"] * 4 + ["m>9 poll 9; 4 of 4 bytes lost"],
    "slow-line": [WRITE, *ACKS],
    "slow-poll": [f"m>3 {ECHO}", "3>m ACK", "m>3 poll 3", f"3>m {ECHOED}", "m>3 poll 3", "3>m EOT"],
    "stale-ack": [
        WRITE, "b>a ACK", "b>a reply, done, TNS 0001", "a>b ENQ", "b>a ACK", "a>b ACK", f"{named('write N7:1 = 5678', 2)}; 19 of 19 bytes lost"
    ],
    "timer-and-float": [
        *exchange("write T4:1.ACC = 012C", "done", 1), *exchange("read T4:1.ACC", "T4:1.ACC = 012C", 2),
        *exchange("write F8:0 = 1", "done", 3), *exchange("read F8:0", "F8:0 = 1", 4),
    ],
    "stations-in-their-order": [],
    "starving-source": [
        named("echo 51"), "b>a ACK", named("echo 52", 2), "b>a ACK", named("reply, 51", 1, "b>a"), "a>b ACK",
        named("echo 53", 3), "b>a ACK", named("reply, 52", 2, "b>a"),
    ],
    "tns-wraps": [*exchange("echo 55", "55", 0xFFFF), *exchange("echo 55", "55", 0)],
    "trace": [f"{WRITE}; byte 15: 34 → 74", "b>a NAK", WRITE, *ACKS, *exchange("read N7:0", "N7:0 = 1234", 2)],
    "turn-too-late": turns(),
    "two-sources": [
        WRITE, "b>a ACK", named("echo 55", 3), "b>a ACK", named("reply, done", 1, "b>a"), "a>b ACK",
        named("write N7:1 = 5678", 2), "b>a ACK", named("reply, 55", 3, "b>a"), "a>b ACK", named("reply, done", 2, "b>a"), "a>b ACK",
    ],
    "typed-read-of-floats": [
        *exchange("typed read F8:0, 2 elements", "F8:0 = 1 -3", 1),
        *exchange("typed read F8:1, 2 elements", "refused: past the end", 2),
    ],
    "unpolled-reply": [f"m>3 {ECHO}", "3>m ACK"],
    "untaken-command": [],
    "window-of-two": [
        WRITE, "b>a ACK", named("write N7:1 = 5678", 2), "b>a ACK",
        named("reply, done", 1, "b>a"), "a>b ACK", named("reply, done", 2, "b>a"), "a>b ACK",
    ],
    "window-over-room": [
        named("echo 51"), "b>a ACK", named("echo 52", 2), "b>a ACK", *(4 * [named("echo 53", 3), "b>a NAK"]),
        named("reply, 51", 1, "b>a"), "a>b ACK", named("reply, 52", 2, "b>a"), "a>b ACK",
    ],
    "window-over-station-room": [
        named("echo 51", 1, "m>5"), "5>m ACK", named("echo 52", 2, "m>5"), "5>m ACK", *(4 * [named("echo 53", 3, "m>5"), "5>m NAK"]),
        "m>5 poll 5", named("reply, 51", 1, "5>m"), "m>5 ACK to 5", "m>5 poll 5", named("reply, 52", 2, "5>m"), "m>5 ACK to 5",
        "m>5 poll 5", "5>m EOT",
    ],
    "word-range": [
        *exchange("range read N7:0, 2 words", "N7:0 = 1234 5678", 1), *exchange("range read N7:2, 2 words", "N7:2 = 9ABC DEF0", 2),
        *exchange("range read N7:3, 2 words", "refused: past the end", 3),
    ],
}

LABELS = {
    "lost-ack": ["a issue 1", "b exec 01000F000100AA02078900003412", "a 10 ticks", "a enquiry", "a answered 1 00014F000100"],
    "no-room": [
        "a issue 1", "a issue 2", "a issue 3", "b exec 0100060001000055", "a 33 ticks", "a unanswered 1",
        "b exec 0100060002000055", "a 33 ticks", "a unanswered 2", "b full",
    ],
    "reset": [
        "m issue 1 to 3", "3 exec 0300060001000055", "m 1 tick", "3 foreign NAK, a reset", "3 dropped", "m 10 ticks", "m 1 tick",
    ],
    "silent-station": ["m issue 1 to 9", "m 2 ticks", "m 2 ticks", "m 2 ticks", "m 2 ticks", "m undelivered 1", "m 1 tick", "m 10 ticks"],
    "stale-ack": [
        "a issue 1", "a issue 2", "b exec 01000F000100AA02078900003412", "a 10 ticks", "a enquiry", "a answered 1 00014F000100",
        "a 100 ticks", "a unanswered 2",
    ],
}

# What is shown of some labels, whose whole text is a line of the report.
SHOWN = {
    "lost-ack": ["exec write N7:0 = 1234", "answered 1, done"],
    "refused-writes": ["exec write N9:0 = 1234", "answered 1, refused: no such element", "answered 4, refused: not understood"],
    "late-before-its-retry": ["undelivered 1", "exec write N7:0 = 1234", "stray reply, done", "answered 2, done"],
    "late-reply": ["unanswered 1", "stray reply, 55"],
    "two-sources": ["issue 1", "issue 3 for 9", "exec echo 55", "answered 3, 55"],
    "polled-write": ["issue 1 to 3", "exec write N7:0 = 1234", "answered 1 by 3, done"],
    "silent-station": ["undelivered 1 to 9"],
    "replies-of-one-tns": ["exec echo 77", "stray from 5: reply, 77"],
    "relayed-write": ["issue 1 to 5", "routed to 5: write N7:0 = 1234", "exec write N7:0 = 1234", "answered 1 by 5, done"],
    "dead-station-between": ["issue 1 to 4", "dropped", "answered 1 by 3, BB"],
    "timer-and-float": ["answered 2, T4:1.ACC = 012C", "answered 4, F8:0 = 1"],
}

FEET = {
    "compatibility-file": ["b word 7 1: 5678 → ABCD", "deceived 0"],
    "deception-on-purpose": ["b word 7 0: 0000 → 1234", "deceived 1"],
    "masked-write": ["b word 7 0: 1234 → 12CD", "deceived 0"],
    "polled-write": ["3 word 7 0: 0000 → 1234", "deceived 0"],
    "rehearsed-push": ["b word 7 0: 0000 → 1234", "pushed 1"],
    "word-range": ["deceived 0"],
}


# The first words of the lines of a report that stand at the foot of its picture.
AT_THE_FOOT = ("deceived", "pulled", "pushed", "missing", "refused")

# where a frame seems to end, or is cut off, before its arrow does
EARLY = ("answer-beside-a-cut-off-poll", "byte-becomes-dle", "damaged-etx")


def script_of(name):
    """The script of an example."""
    return next(script for script in EXAMPLES if script.stem == name)


class Examples(unittest.TestCase):
    def test_each_has_its_arrows(self):
        for script in EXAMPLES:
            with self.subTest(script.stem):
                self.assertIn(script.stem, ARROWS, "what arrows must its picture have?")
                self.assertEqual(Seen(picture(script)).arrows, ARROWS[script.stem])

    def test_each_has_what_its_report_tells_in_order(self):
        for script in EXAMPLES:
            with self.subTest(script.stem):
                lines = [line.split(" ", 2) for line in script.with_suffix(".report").read_text().splitlines()]
                told = [line for line in lines if line[1] not in ("sent", "word") and line[0] not in AT_THE_FOOT]
                words = {line[1] for line in told}
                labels = [label.split(" ", 2) for label in Seen(picture(script)).labels]
                self.assertEqual([label for label in labels if label[1] in words], told)

    def test_what_the_report_tells_is_shown_as_people_name_it(self):
        for name, words in SHOWN.items():
            with self.subTest(name):
                shown = [text.shown for text in Seen(picture(script_of(name))).texts]
                self.assertEqual([one for one in words if one not in shown], [])

    def test_some_have_these_labels_beside_their_ends(self):
        for name, labels in LABELS.items():
            with self.subTest(name):
                self.assertEqual(Seen(picture(script_of(name))).labels, labels)

    def test_some_have_these_words_and_deceptions_at_the_foot(self):
        for name, foot in FEET.items():
            with self.subTest(name):
                seen = Seen(picture(script_of(name)))
                self.assertEqual([words for words in seen.words() if " word " in words] + seen.words("word")[-1:], foot)
                self.assertEqual(seen.words("red"), [words for words in foot if words == "deceived 1"])

    def test_what_is_told_stands_where_an_arrow_ends(self):
        for script in EXAMPLES:
            with self.subTest(script.stem):
                seen = Seen(picture(script))
                first = {arrow: arrow.begin[1] if script.stem in EARLY else arrow.end[1] - 24 for arrow in seen.flights}
                for end, label in seen.beside:
                    if label.words.split(" ")[0] in ("exec", "answered", "stray", "repeat", "full", "damaged"):
                        near = [arrow for arrow in seen.flights if first[arrow] < label.place[1] < arrow.end[1] + 24]
                        self.assertTrue(any(arrow.text.split(" ")[0].endswith(f">{end}") for arrow in near), label)

    def test_each_has_its_stored_picture_and_its_place_in_the_index(self):
        index = (TOP / "examples" / "README.md").read_text()
        for script in EXAMPLES:
            with self.subTest(script.stem):
                stored = TOP / "docs" / "pictures" / f"{script.stem}.svg"
                self.assertTrue(stored.exists() and stored.read_text() == picture(script), f"{stored} is stale: view/make makes it anew")
                self.assertIn(f"({script.name})", index)
                self.assertIn(f"pictures/{script.stem}.svg", index)

    def test_no_picture_is_stored_of_a_script_that_is_gone(self):
        stored = sorted(path.stem for path in (TOP / "docs" / "pictures").iterdir())
        self.assertEqual(stored, sorted(script.stem for script in EXAMPLES))


if __name__ == "__main__":
    unittest.main()
