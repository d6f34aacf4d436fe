"""What the page tells of a script: its fault in the words of FORMATS, its picture, and what its arrows show and where they are edited."""
import os
import re
import unittest
import unittest.mock
from pathlib import Path

from ladder.program import Stopped

import menu
import replays
from causes import FORMATS, Causes
from programs import Program
from remembering import Remembered
from replays import Replays

TOP = Path(__file__).resolve().parent.parent
DF1 = os.environ.get("DF1", str(TOP / "crates/df1/out/df1"))
PROGRAM = Program([DF1], seconds=60)
REPLAYS = Replays(PROGRAM, Causes())

EVENTS = "file b 7 89 16\nai 0FAA02078900003412\nak 19\nad 19\nbk 13\nbd 13\nak 2\nad 2\n"
EXCHANGE = f"{EVENTS}end\n"


def told(script, **words):
    """What a script gives."""
    return REPLAYS.told(script.encode(), words)


def rows_of_refusals():
    """Each row of FORMATS of what usually leads to a cause in a script that is replayed, with the lines before it."""
    before = None
    for line in FORMATS.read_text().splitlines():
        mark = re.fullmatch("<!-- refused (.*)after: (.*) -->", line)
        row = re.fullmatch(r"\| `([a-z]+)` \| `([^`]*)` \| `([^`]*)` \| (.+?) \|", line)
        if mark:
            before = None if mark[1] else mark[2].split(" | ")
        elif row and before:
            yield before, row


class Faults(unittest.TestCase):
    def test_what_usually_leads_to_a_cause_is_told_first_for_each_row_of_formats(self):
        rows = list(rows_of_refusals())
        self.assertGreater(len(rows), 40)
        for before, (_, cause, written, right, why) in ((before, [row[0], *row.groups()]) for before, row in rows):
            with self.subTest(written):
                fault = told("\n".join([*before, written]))["fault"]
                self.assertEqual((fault["line"], fault["cause"]), (len(before) + 1, cause))
                self.assertEqual(fault["hints"][0], {"written": written, "right": right, "why": why})

    def test_a_line_of_another_end_or_kind_has_the_same_hint(self):
        for written, right in (("bx 0", "ak 1"), ("bc 00", "ac 01"), ("bi 4F00", "ai 0F00"), ("bt 1 # late", "ak 13")):
            self.assertEqual(told(f"ai 0603\n{written}\nend\n")["fault"]["hints"][0]["right"], right)

    def test_each_cause_has_its_sentence(self):
        for cause in ("size", "long", "after", "form", "place", "missing", "value", "twice", "spent", "events", "open"):
            self.assertTrue(Causes().sentences[cause], cause)

    def test_the_form_of_a_line_is_told(self):
        fault = told("ak x\nend\n")["fault"]
        self.assertEqual((fault["line"], fault["cause"], fault["form"]["form"]), (1, "form", "ak [n]"))
        fault = told("set mode half\nstation 12\n12k x\nend\n")["fault"]
        self.assertEqual((fault["line"], fault["form"]["form"]), (3, "Sk [n]"))
        self.assertIsNone(told("hello\n")["fault"]["form"])
        for line, form in (("ai 060", "ai HEX"), ("ai 256 0603", "ai SRC HEX"), ("ai 9 0603 1", "ai HEX")):
            self.assertEqual(told(f"{line}\n")["fault"]["form"]["form"], form)

    def test_an_open_script_is_drawn_and_its_fault_stands_behind_its_last_line(self):
        answer = told(EVENTS)
        self.assertEqual((answer["fault"]["line"], answer["fault"]["cause"], answer["upTo"]), (9, "open", 8))
        self.assertEqual(len(answer["arrows"]), 4)

    def test_the_lines_before_a_fault_are_drawn_and_the_report_is_that_of_the_program(self):
        answer = told(EXCHANGE.replace("bk 13", "bk 0"))
        self.assertEqual([arrow["what"] for arrow in answer["arrows"].values()], ["a to b: write N7:0 = 1234, TNS 0001"])
        self.assertEqual(answer["report"], "a sent 100201000F000100AA0207890000341210036D\nb exec 01000F000100AA02078900003412\n")
        for script in ("", "x", "set mode half\nset mode half\n", "end\nx", "\n\nx", EXCHANGE + "ad 2\n"):
            with self.subTest(script):
                self.assertIn("picture", told(script))


class Arrows(unittest.TestCase):
    def test_an_arrow_has_its_bytes_fields_and_lines(self):
        answer = told(EXCHANGE)
        write, _, reply, _ = answer["arrows"].values()
        self.assertEqual((write["bytes"], write["fate"], write["lines"], write["reports"]), ("100201000F000100AA0207890000341210036D", "arrived", [3, 4], [0, 1]))
        fields = [(part["name"], write["bytes"][2 * part["first"]:2 * part["after"]], part["text"]) for part in write["parts"]]
        self.assertEqual(fields, [
            ("DLE STX", "1002", "the body begins"), ("DST", "01", "to node 1"), ("SRC", "00", "from node 0"), ("CMD", "0F", "FNC follows TNS"),
            ("STS", "00", "of a command"), ("TNS", "0100", "transaction 0001"), ("FNC", "AA", "write"), ("SIZE", "02", "2 bytes"),
            ("address", "07890000", "N7:0"), ("data", "3412", "1234"), ("DLE ETX", "1003", "the body ends"), ("check", "6D", "BCC"),
        ])
        self.assertEqual((reply["lines"], reply["reports"]), ([5, 6], [2, 3]))
        self.assertEqual(answer["reportedAt"], [3, 4, 5, 6, 7])

    def test_each_arrow_of_the_picture_can_be_touched(self):
        for group in menu.examples()["groups"]:
            for script in group["scripts"]:
                with self.subTest(script["name"]):
                    answer = told(script["text"])
                    drawn = re.findall('data-arrow="([^"]*)"', answer["picture"])
                    self.assertEqual(sorted(drawn), sorted(answer["arrows"]))
                    lines = len(answer["report"].splitlines())
                    for arrow in answer["arrows"].values():
                        self.assertTrue(all(0 <= place < lines for place in arrow["reports"]))
                        sizes = [part["after"] - part["first"] for part in arrow["parts"]]
                        self.assertTrue(not sizes or sum(sizes) == len(arrow["bytes"]) // 2, arrow)

    def test_what_takes_an_arrow_from_its_queue_is_told(self):
        ack, reply = list(told(EXCHANGE)["arrows"].values())[1:3]
        self.assertEqual(ack["moves"], [{"line": 6, "kind": "d", "count": 13, "first": 0, "size": 2}])
        self.assertEqual(reply["moves"], [{"line": 6, "kind": "d", "count": 13, "first": 2, "size": 11}])
        self.assertEqual((ack["clock"], reply["clock"], reply["end"], reply["station"]), (["a", 10], ["b", 10], "b", None))

    def test_what_is_under_way_says_what_is_ahead_of_it(self):
        arrows = told("set a.ack_ticks 7\nset b.ack_ticks 5\nai 0603\nak 99\nad 99\nbk 99\nbd 1\nend\n")["arrows"]
        ack, reply = list(arrows.values())[1:]
        self.assertEqual((ack["waits"], ack["moves"][0]["size"], ack["clock"]), ({"ahead": 0, "size": 1}, 1, ["a", 7]))
        self.assertEqual((reply["waits"]["ahead"], reply["moves"], reply["clock"]), (1, [], ["b", 5]))

    def test_a_byte_of_ten_is_two_bytes_of_its_field(self):
        write = next(iter(told("file b 7 89 16\nai 0FAA02078910001034\nak 99\nad 99\nend\n")["arrows"].values()))
        fields = {part["name"]: write["bytes"][2 * part["first"]:2 * part["after"]] for part in write["parts"]}
        self.assertEqual((fields["address"], fields["data"]), ("0789101000", "101034"))


class Bounds(unittest.TestCase):
    def test_a_long_script_is_not_drawn_and_the_head_of_its_report_is_shown(self):
        answer = told(EVENTS + f"# {'x' * 1000}\n" * 1100 + "end\n")
        self.assertIn("isn't drawn: the most is 1,048,576", answer["why"])
        self.assertTrue(answer["report"].endswith("deceived 0\n"))
        self.assertNotIn("picture", answer)

    def test_a_script_over_the_limit_of_the_program_is_refused_by_it(self):
        answer = told(f"# {'x' * 1000}\n" * 16800)
        self.assertEqual(answer["fault"]["cause"], "size")
        self.assertIn("isn't drawn", answer["why"])

    def test_a_long_report_is_shown_by_its_head(self):
        script = "an 1005\nbk 2\nbx 2\n" * 6000 + "end\n"
        answer, whole = told(script), PROGRAM.run(["replay"], script.encode(), 2**20).output.decode()
        self.assertEqual((answer["report"], answer["reportBytes"]), (whole[:len(answer["report"])], len(whole)))
        self.assertTrue(len(whole) - 20 > len(answer["report"]) > 65000 and answer["report"].endswith("\n"))

    def test_a_run_of_3000_lines_is_drawn_in_parts(self):
        script = "file b 7 89 16\n" + "ai 0FAA02078900003412\nak 99\nad 99\nbk 99\nbd 99\nak 99\nad 99\n" * 430 + "end\n"
        answer = told(script)
        self.assertEqual((answer["cutBefore"], len(answer["arrows"])), (351, 200))
        later = told(script, **{"from": "2900"})
        self.assertEqual((later["cutBefore"], min(arrow["lines"][0] for arrow in later["arrows"].values())), (None, 2901))

    def test_what_was_told_before_a_run_took_too_long_is_kept(self):
        known = []

        class Counted(Remembered):
            def __init__(self, program, pieces):
                known.append(len(pieces))
                super().__init__(program, pieces)

        def stops(feed, *_):
            feed.lines_of(b"ai 0603\n")
            raise Stopped

        slow = Replays(PROGRAM, Causes())
        with unittest.mock.patch.object(replays, "Remembered", Counted):
            with unittest.mock.patch.object(replays, "play", stops):
                self.assertIn("took too long", slow.told(b"ai 0603\nak 99\nend\n", {})["why"])
            self.assertIn("picture", slow.told(b"ai 0603\nak 99\nend\n", {}))
        self.assertEqual(known, [0, 1])

    def test_what_is_known_of_an_earlier_run_is_not_run_again(self):
        with Remembered(PROGRAM, []) as first:
            lines = [first.lines_of(piece) for piece in (b"ai 0603\n", b"ak 99\n", b"ad 99\n")]
        with Remembered(Program(["/nowhere/df1"]), first.told) as second:
            self.assertEqual([second.lines_of(piece) for piece in (b"ai 0603\n", b"ak 99\n", b"ad 99\n")], lines)
            self.assertRaises(OSError, second.lines_of, b"bk 99\n")
        with Remembered(PROGRAM, first.told) as third:
            self.assertEqual([third.lines_of(piece) for piece in (b"ai 0603\n", b"ak 99\n", b"ad 3\n", b"ad 99\n")], [*lines[:2], [], lines[2]])


if __name__ == "__main__":
    unittest.main()
