"""How what was given splits into items, and how scripts and reports are read."""
import unittest

from ladder.items import NoItem, Splitter, split_foreign
from ladder.report import Foot, NoReport, read_line, read_report
from ladder.script import Comment, Event, read_script

# What it is, the side, the bytes of a check, the bytes, and each item with the places of its first and last byte; of a message its body.
ITEMS = [
    ("a frame with a BCC", "full", 1, "1002080906000204031003E0", [("08090600020403", 0, 11)]),
    ("a frame with a CRC", "full", 2, "10020809060002040310039848", [("08090600020403", 0, 12)]),
    ("a body with the byte 10", "full", 1, "100207000600101000001010" + "1003D3", [("0700060010000010", 0, 14)]),
    ("a BCC of 10", "full", 1, "100207000600010000E2" + "100310", [("07000600010000E2", 0, 12)]),
    (
        "responses, an enquiry and a reply", "full", 1, "100610051015" + "100200014FF001000A1003B5",
        [("ACK", 0, 1), ("ENQ", 2, 3), ("NAK", 4, 5), ("00014FF001000A", 6, 17)],
    ),
    (
        "a response inside a frame", "full", 1, "100201000F000100" + "1006" + "AA100345",
        [("ACK, embedded", 8, 9), ("01000F000100AA", 0, 13)],
    ),
    (
        "a master's message, poll and ACK", "master", 1, "10010310020300060001000055" + "10039E" + "100503FD" + "1006",
        [("03000600010000" + "55", 0, 15), ("poll 3", 16, 19), ("ACK to 3", 20, 21)],
    ),
    ("a poll where the check is a CRC", "master", 2, "100503FD1006", [("poll 3", 0, 3), ("ACK to 3", 4, 5)]),
    (
        "a slave's message and EOT", "slave", 1, "1002000346101001001003A6" + "1004",
        [("000346100100", 0, 11), ("EOT", 12, 13)],
    ),
]

NO_ITEMS = [
    ("full", "55"), ("full", "1004"), ("full", "10021041"), ("full", "10021005"),
    ("master", "1002"), ("master", "10010341"), ("master", "10010310021006"),
    ("slave", "1001"), ("slave", "1005"), ("slave", "10021006"),
]

FOREIGN = [
    ("full", "1015", [("NAK", "1015")]),
    ("full", "10061002" + "01000F000100" + "1006" + "AA100345", [
        ("ACK", "1006"), ("01000F000100AA", "100201000F0001001006AA100345")]),
    ("full", "101555", [(None, "101555")]),
    ("full", "1015" + "1002", [(None, "10151002")]),
    ("master", "1015", [("NAK, a reset", "1015")]),
]

SCRIPT = b"""\
# A title\r
# in two lines.

set mode half
station 03
\tstation  5
set check crc
file 3 7 89 16
word 03 007 1 00fF
# Then
mi 3 060055
mi 005 009 060056
mk
3k 02
mx 5 17\r
mc 005 0a
end
# after the end
"""


def told(item):
    """The body of a message, or the name of another item."""
    return item.name if item.body is None else item.body.hex().upper()


class Items(unittest.TestCase):
    def test_bytes_split_into_items_however_they_come(self):
        for what, side, check_size, text, items in ITEMS:
            for size in (1, 3, 100):
                with self.subTest(what, size=size):
                    data, splitter = bytes.fromhex(text), Splitter(side, check_size)
                    found = [item for at in range(0, len(data), size) for item in splitter.feed(data[at:at + size])]
                    self.assertEqual([(told(item), item.first, item.last) for item in found], items)
                    self.assertIsNone(splitter.unfinished())

    def test_bytes_that_are_no_items(self):
        for side, text in NO_ITEMS:
            with self.subTest(side=side, text=text), self.assertRaises(NoItem):
                Splitter(side, 1).feed(bytes.fromhex(text))

    def test_a_frame_has_not_the_places_of_a_response_inside_it(self):
        splitter = Splitter("full", 1)
        frame = splitter.feed(bytes.fromhex("100201000F0001001006AA100345"))[-1]
        self.assertEqual(frame.places(), (0, 1, 2, 3, 4, 5, 6, 7, 10, 11, 12, 13))

    def test_an_ack_of_a_master_is_to_the_station_that_it_polled_last(self):
        items = Splitter("master", 1).feed(bytes.fromhex("1006" + "100503FD" + "1006" + "100505FB" + "1006"))
        self.assertEqual([(item.name, item.station) for item in items], [
            ("ACK", None), ("poll 3", "3"), ("ACK to 3", "3"), ("poll 5", "5"), ("ACK to 5", "5")
        ])

    def test_what_is_begun_is_unfinished(self):
        splitter = Splitter("full", 1)
        self.assertEqual([item.name for item in splitter.feed(bytes.fromhex("1006100201"))], ["ACK"])
        self.assertEqual((splitter.unfinished().first, splitter.unfinished().last), (2, 4))

    def test_foreign_bytes_are_their_items_or_just_bytes(self):
        for side, text, items in FOREIGN:
            with self.subTest(side=side, text=text):
                found = split_foreign(side, 1, bytes.fromhex(text))
                self.assertEqual([(told(item) if item else None, data.hex().upper()) for item, data in found], items)


class Scripts(unittest.TestCase):
    def test_what_a_script_says(self):
        script = read_script(SCRIPT)
        self.assertEqual((script.caption, script.mode, script.check_size), ("A title in two lines.", "half", 2))
        self.assertEqual((script.ends, script.words), (["m", "3", "5"], {("3", 7, 1): 0x00FF}))
        self.assertEqual((script.letters, script.settings, script.lines), ({"3": {7: "N"}}, {"check": "crc"}, 18))
        self.assertEqual(list(script.happenings()), [
            Comment(10, "Then"),
            Event(11, "m", "i", "3", "060055"),
            Event(12, "m", "i", "5", "060056", "9"),
            Event(13, "m", "k", None, None),
            Event(14, "3", "k", None, "02"),
            Event(15, "m", "x", "5", "17"),
            Event(16, "m", "c", "5", "0a"),
        ])

    def test_which_ends_bytes_go_between(self):
        script = read_script(SCRIPT)
        self.assertEqual([script.receivers(end) for end in ("m", "3")], [["3", "5"], ["m"]])
        self.assertEqual([script.other(event) for event in script.happenings() if isinstance(event, Event)][3:], ["m", "5", "5"])
        self.assertEqual([read_script(b"end").receivers(end) for end in ("a", "b")], [["b"], ["a"]])


class Reports(unittest.TestCase):
    def test_what_a_report_says(self):
        lines, foot = read_report("a sent 1006\n12 dropped\na word 7 0 1234\na word 7 10 00FF\ndeceived 3\n")
        self.assertEqual([(line.who, line.text) for line in map(read_line, lines)], [("a", "sent 1006"), ("12", "dropped")])
        self.assertEqual(foot, Foot({("a", 7, 0): 0x1234, ("a", 7, 10): 0x00FF}, 3))
        self.assertEqual(foot.changed({("a", 7, 0): 0x1234, ("a", 7, 3): 1}), [(("a", 7, 10), 0, 0x00FF), (("a", 7, 3), 1, 0)])

    def test_what_is_no_report(self):
        for text in ("", "a sent 1006\n", "deceived\n", "deceived 0\na sent 1006\n"):
            with self.subTest(text), self.assertRaises(NoReport):
                read_report(text)
        for line in ("a sent", "a sent 1", "a sent 1a", "a answered 00", "c repeat", "a repeat 1", "a undelivered"):
            with self.subTest(line), self.assertRaises(NoReport):
                read_line(line)


if __name__ == "__main__":
    unittest.main()
