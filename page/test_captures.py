"""What the page tells of a capture."""
import os
import unittest
from pathlib import Path

import menu
from captures import Captures, capture
from programs import Program

TOP = Path(__file__).resolve().parent.parent
EXAMPLES = TOP / "examples"
DF1 = os.environ.get("DF1", str(TOP / "crates/df1/out/df1"))
CAPTURES = Captures(Program([DF1], seconds=60))


def told(text, side="full", check="bcc", **words):
    """What a capture gives."""
    return CAPTURES.told(text.encode(), {"side": side, "check": check, **words})


class Dissections(unittest.TestCase):
    def test_the_examples_have_their_items_and_counts(self):
        for name, side in menu.CAPTURES:
            with self.subTest(name):
                answer = told((EXAMPLES / f"{name}.in").read_text(), side)
                lines = [f"{item['first']} {item['last']} {item['kind']} {item['rest']}".strip() for item in answer["items"]]
                self.assertEqual(lines, (EXAMPLES / f"{name}.text").read_text().splitlines())
                counts = f"heard {answer['heard']} bad {answer['bad']} open {answer['open']}"
                self.assertEqual(counts, (EXAMPLES / f"{name}.counts").read_text().strip())

    def test_a_message_says_what_it_is_and_has_its_fields(self):
        answer = told("10 02 08 09 10 06 06 00 02 04 03 10 03 E0")
        response, message = answer["items"]
        self.assertEqual((response["kind"], message["says"]), ("ack", "status"))
        fields = {part["name"]: part["places"] for part in message["parts"]}
        self.assertEqual((fields["SRC"], fields["CMD"], fields["TNS"], fields["check"]), ([3], [6], [8, 9], [13]))

    def test_one_direction_of_a_log_is_chosen(self):
        log = (EXAMPLES / "trace.log").read_text()
        for way, name in (("TX", "trace-tx"), ("RX", "trace-rx"), ("", "trace-tx")):
            answer = told(log, way=way)
            lines = [f"{item['first']} {item['last']} {item['kind']} {item['rest']}".strip() for item in answer["items"]]
            self.assertEqual(lines, (EXAMPLES / f"{name}.text").read_text().splitlines())
            self.assertEqual(answer["ways"], ["TX", "RX"])
        self.assertEqual([item["says"] for item in answer["items"] if "says" in item], ["write N7:0 = 1234", "read N7:0"])
        said = [item["says"] for item in told(log, way="RX")["items"] if "says" in item]
        self.assertEqual(said, ["reply, done", "reply, N7:0 = 1234"])
        named = log.replace("09:14:02.131", "09:14:02.130 -- write N7:0 = 1234, TNS 0001\n09:14:02.131")
        self.assertEqual(told(named, way="TX")["items"], told(log, way="TX")["items"])

    def test_what_is_no_capture_is_refused(self):
        for text, why in (("10 0G", "`G` is no hexadecimal digit"), ("10 0", "there is an odd number of digits"), ("<b>", "`<` is no hexadecimal digit")):
            with self.assertRaises(ValueError) as refused:
                told(text)
            self.assertEqual(str(refused.exception), why)
        self.assertEqual(capture("", ""), (b"", []))
        self.assertEqual(told("")["heard"], 0)

    def test_a_long_capture_is_not_shown_and_of_many_items_the_first_are(self):
        self.assertIn("isn't shown: the most is 262,144", told("00" * 262145)["why"])
        answer = told("00" * 3000)
        self.assertEqual((answer["heard"], answer["count"], len(answer["items"])), (3000, 3000, 2000))


if __name__ == "__main__":
    unittest.main()
