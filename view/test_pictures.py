"""How pictures must look, and which part of a run they have."""
import itertools
import re
import unittest

from ladder.run import Window
from seen import EXAMPLES, TOP, Seen, crosses, overlap, picture

# Bytes lost in the middle of a frame, one altered twice, one altered and lost; then a NAK whose first byte is lost.
PIECES = """\
# <A frame> in pieces & "more".
file b 7 89 16
ai 0FAA02078900003412
ak 19
ad 3
ax 2
ac 40
ac 02
ad 4
ac 01
ax 1
ad 99
bk 99
bx 1
bd 1
end
"""

# An ACK inside a frame, parted by what happens between its two bytes.
PARTED = """\
set a.embed on
ai 0FA20207890000
bi 060055
ak 8
bk 13
bd 13
ak 1
ad 9
ak 1
ad 1
ak 3
end
"""

# Foreign bytes: a poll and a reset, bytes that are no items, and a frame with a NAK inside it.
FOREIGN_HALF = """\
set mode half
station 3
station 5
mn 3 100503FD1015
5n 100210
end
"""
FOREIGN_FULL = """\
an 1002010006000100101500551003A3
end
"""

# Both ends send at once, and their arrows cross.
CROSSING = """\
file a 7 89 16
file b 7 89 16
ai 0FAA02078900003412
bi 0FAA04078902003412CDAB
ak 21
bk 25
at 2
ad 21
bd 25
end
"""

LONG = f"""\
# {"A long comment. " * 60}
set b.block {"AB" * 244}
ai 0603
ai 0600{"55" * 243}
# {"Another one. " * 60}
ak 999
ad 999
bk 999
bd 999
ak 999
ad 999
an {"41" * 250}
at 4000
end
"""


# A comment while a frame and a reply are under way.
COMMENTED = """\
ai 0603
ak 99
# b executes a's command, and its ACK and its reply go out in the middle of what end a still has to say about all of that
ad 99
bk 99
# and so on
bd 99
end
"""


def many_stations(count=32):
    """A command to one of so many stations and polls of three, each heard by all."""
    numbers = [number for number in range(1, 34) if number != 16][:count]
    last = min(count, 7)
    lines = ["set mode half"] + [f"station {number}" for number in numbers] + [f"mi {last} 060055", "mk 16"]
    lines += [f"md {number} 16" for number in numbers] + [f"{last}k 2", f"{last}d 2"]
    for polled in (1, 2, 3):
        lines += ["mt", "mk 4"] + [f"md {number} 4" for number in numbers] + [f"{polled}k 2", f"{polled}d 2"]
    return "\n".join(lines + ["end"]) + "\n"


SCRIPTS = [
    *EXAMPLES, PIECES, PARTED, FOREIGN_HALF, FOREIGN_FULL, LONG, COMMENTED, CROSSING, many_stations(), many_stations(6),
    "end\n", "set mode half\nmt 5\nend\n",
]
SEEN = [(script, Seen(picture(script))) for script in SCRIPTS]


class Looks(unittest.TestCase):
    def test_no_text_is_cut_by_the_edge(self):
        for script, seen in SEEN:
            for text in seen.texts:
                self.assertTrue(all(0 <= x <= seen.size[0] and 0 <= y <= seen.size[1] for x, y in text.corners), (script, text))

    def test_no_text_stands_in_another(self):
        for script, seen in SEEN:
            for text, other in itertools.combinations(seen.texts, 2):
                self.assertFalse(overlap(text, other), (script, text.words, other.words))

    def test_no_text_is_crossed_by_an_arrow(self):
        for script, seen in SEEN:
            for text, arrow in itertools.product(seen.texts, seen.flights):
                self.assertFalse(crosses(arrow, text), (script, text.shown, arrow.text))

    def test_a_name_that_would_be_crossed_stands_elsewhere(self):
        seen = Seen(picture(CROSSING))
        first, second = [text for text in seen.texts if text.shown.startswith("write ")]
        self.assertEqual((first.shown, second.shown), ("write N7:0 = 1234 TNS 0001", "write N7:2 = 1234 ABCD TNS 0001"))
        self.assertLess(first.place[0] - seen.ends["a"], 20)
        self.assertGreater(seen.ends["b"] - second.place[0], 100)

    def test_six_stations_stand_in_the_width_of_a_screen(self):
        seen = Seen(picture(many_stations(6)))
        self.assertLess(seen.size[0], 1200)
        self.assertIn("exec", [text.shown for text in seen.texts])

    def test_time_goes_downwards(self):
        for script, seen in SEEN:
            for arrow in seen.flights:
                self.assertTrue(arrow.begin[1] < arrow.end[1] or "foreign" in arrow.classes, (script, arrow))

    def test_texts_are_drawn_above_all_shapes(self):
        for script in SCRIPTS:
            self.assertNotRegex(picture(script).split("<text", 1)[-1], "<(line|path|polygon|circle|rect)")

    def test_a_picture_stands_alone(self):
        for script in SCRIPTS:
            drawn = picture(script)
            self.assertEqual(re.findall(r"https?://[^\"]*", drawn), ["http://www.w3.org/2000/svg"])
            self.assertNotRegex(drawn, r"<script|<image|href|url\(|@import|@font-face")
            self.assertEqual(set(re.findall(r"font: [^;]*px ([^;]*);", drawn)), {"monospace", "sans-serif"})
            self.assertIn("prefers-color-scheme: dark", drawn)


class Fates(unittest.TestCase):
    def test_lost_and_altered_bytes_are_told_and_drawn(self):
        seen = Seen(picture(PIECES))
        self.assertEqual(seen.arrows, [
            "a>b write N7:0 = 1234, TNS 0001; 3 of 19 bytes lost, byte 6: 00 → 40, byte 6: 40 → 42, byte 10: 02 → 03",
            "b>a NAK; 1 of 2 bytes lost",
        ])
        self.assertEqual([sorted(arrow.classes) for arrow in seen.flights], [["altered", "flight", "lost"], ["flight", "lost"]])
        marks = ["2 of 19 lost", "byte 6: 00 → 40", "byte 6: 40 → 42", "byte 10: 02 → 03", "1 of 19 lost", "1 of 2 lost"]
        self.assertEqual([words for words in seen.words("rest") if words in marks], marks)

    def test_what_is_lost_or_delivered_in_one_event_has_heights_of_its_own(self):
        for kind in "xd":
            seen = Seen(picture(f"ai 0603\nak 99\nad 99\nbk 99\nb{kind} 99\nend\n"))
            _, ack, reply = seen.flights
            self.assertLess(ack.end[1] + 16, reply.end[1])
            self.assertEqual(seen.words("gutter"), ["1 ai 0603", "2 ak 99", "3 ad 99", "4 bk 99", f"5 b{kind} 99"])

    def test_an_arrow_whose_last_byte_arrives_ends_at_the_line_of_its_end_and_another_before_it(self):
        seen = Seen(picture(TOP / "examples" / "lost-ack.df1"))
        self.assertEqual([arrow.end[0] in seen.ends.values() for arrow in seen.flights], [True, False, True, True, True, True])

    def test_an_embedded_response_is_an_arrow_of_its_own_and_none_of_its_frame(self):
        self.assertEqual(Seen(picture(PARTED)).arrows, [
            "a>b unfinished; under way", "b>a echo 55, TNS 0001", "a>b ACK, embedded"
        ])

    def test_foreign_bytes_come_from_beyond_the_labels(self):
        seen = Seen(picture(FOREIGN_HALF))
        self.assertEqual(seen.arrows, ["foreign>3 poll 3", "foreign>3 NAK, a reset", "foreign>m 10 02 10"])
        self.assertEqual([arrow.begin[0] > seen.ends["3"] for arrow in seen.flights], [True, True, False])
        self.assertEqual([arrow.end[0] for arrow in seen.flights], [seen.ends["3"], seen.ends["3"], seen.ends["m"]])
        self.assertEqual(Seen(picture(FOREIGN_FULL)).arrows, ["foreign>b echo 55"])

    def test_a_message_to_a_station_is_faint_where_another_hears_it(self):
        seen = Seen(picture(TOP / "examples" / "polled-write.df1"))
        faint = [arrow.text for arrow in seen.flights if "overheard" in arrow.classes]
        self.assertEqual(faint, ["m>5 write N7:0 = 1234, TNS 0001", "m>5 poll 3", "m>3 poll 5", "m>5 poll 3", "m>5 ACK to 3"])

    def test_events_that_give_and_deliver_byte_by_byte_make_one_row(self):
        script = "ai 0603\n" + "ak\n" * 13 + "ad\n" * 13 + "end\n"
        self.assertEqual(Seen(picture(script)).words("gutter"), ["1 ai 0603", "2–14 ak 13", "15–26 ad 12", "27 ad"])

    def test_what_many_stations_hear_of_a_message_to_another_stands_at_one_height(self):
        seen = Seen(picture(many_stations()))
        polls = [arrow for arrow in seen.flights if arrow.text.endswith("poll 2")]
        self.assertEqual((len(polls), len({arrow.end[1] for arrow in polls})), (32, 1))
        self.assertEqual([arrow.text for arrow in polls if "overheard" not in arrow.classes], ["m>2 poll 2"])
        self.assertEqual(sum(words.startswith("md 1 4, md 2 4, md 3 4, md 4 4,") for words in seen.words("gutter")), 3)

    def test_a_comment_stands_where_it_was_written(self):
        words = [text.words for text in Seen(picture("# First.\nai 0603\n# Then\n# this.\nak 9\nend\n")).texts]
        places = [words.index(text) for text in ("First.", "2 ai 0603", "Then this.", "5 ak 9")]
        self.assertEqual(places, sorted(places))


class Windows(unittest.TestCase):
    SCRIPT = TOP / "examples" / "stale-ack.df1"

    def test_lines_from_and_to(self):
        seen = Seen(picture(self.SCRIPT, Window(9, 12)))
        self.assertEqual(seen.arrows, ["b>a ACK", "b>a reply, done, TNS 0001", "a>b ENQ", "b>a ACK; under way"])
        self.assertEqual(seen.labels, ["a answered 1 00014F000100"])
        self.assertEqual(seen.words("gutter"), ["earlier", "earlier", "9 ak 2", "10 ad 2", "11 bk 2", "12 bd 13"])
        self.assertEqual(seen.words("note"), ["Lines from 9 to 12 of the script; what stands below is of the whole run."])
        self.assertIn("b word 7 0: 0000 → 1234", seen.words())

    def test_lines_behind_the_last_event(self):
        seen = Seen(picture(self.SCRIPT, Window(100)))
        self.assertEqual((seen.arrows, seen.labels), ([], []))
        self.assertEqual(seen.words("note"), ["Nothing from line 100 on: the script's last line is 18."])

    def test_a_long_run_is_cut_and_says_where(self):
        script = "".join("ai 0600\nak 99\nad 99\nbk 99\nbd 99\nak 2\nad 2\n" for _ in range(150)) + "end\n"
        seen = Seen(picture(script))
        self.assertEqual(len(seen.arrows), 400)
        self.assertEqual(seen.words("note"), ["Cut before line 700, at 400 arrows: --from 700 draws what follows."])
        self.assertEqual(len(Seen(picture(script, Window(1, 1050))).arrows), 600)

    def test_a_run_of_many_steps_is_cut_and_says_where(self):
        seen = Seen(picture("at 1\n" * 9 + "end\n", Window(steps=5)))
        self.assertEqual(seen.words("note"), ["Cut before line 6, at 5 steps: --from 6 draws what follows."])
        self.assertEqual(len(seen.labels), 5)

    def test_a_run_without_events(self):
        seen = Seen(picture("word b 7 0 0001\nend\n".replace("word", "file b 7 89 1\nword", 1)))
        self.assertEqual((seen.arrows, seen.labels, sorted(seen.ends)), ([], [], ["a", "b"]))
        self.assertEqual(seen.words("note") + seen.words("word"), ["No event.", "deceived 0"])


if __name__ == "__main__":
    unittest.main()
