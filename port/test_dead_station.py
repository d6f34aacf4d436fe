"""What a dead station costs a master: the ticks that docs/SERVING.md tells, counted on runs of the built program."""
import os
import pathlib
import subprocess
import unittest

HERE = pathlib.Path(__file__).resolve().parent
DF1 = os.environ.get("DF1", str(HERE.parent / "crates/df1/out/df1"))

COMMAND = ["mi 9 060055"]
ALONE = ["mk 99", "mx 9 99"]
BESIDE = ["mk 99", "md 3 99", "mx 9 99", "3k 99", "3d 99"]
ACKNOWLEDGED = ["mk 99", "md 9 99", "9k 2", "9d 2"]


def outcome(stations, before, every, ticks):
    """What is told of the command of a dead station after so many ticks, at each of which its bytes are lost."""
    lines = ["set mode half", *(f"station {number}" for number in stations), *COMMAND, *before]
    for _ in range(ticks):
        lines += [*every, "mt"]
    script = "\n".join([*lines, "end", ""])
    report = subprocess.run([DF1, "replay"], input=script, capture_output=True, text=True, check=True).stdout
    told = [line for line in report.splitlines() if line.startswith(("m undelivered", "m unanswered"))]
    return told[0] if told else None


class DeadStations(unittest.TestCase):
    def test_a_command_is_given_up_at_this_tick_and_not_before(self):
        for name, stations, before, every, ticks, told in [
            ("never acknowledged", [9], [], ALONE, 40, "m undelivered 1"),
            ("acknowledged, alone on the line", [9], ACKNOWLEDGED, ALONE, 1090, "m unanswered 1"),
            ("acknowledged, and polled before one that answers", [9, 3], ACKNOWLEDGED, BESIDE, 600, "m unanswered 1"),
            ("acknowledged, and polled behind it", [3, 9], ACKNOWLEDGED, BESIDE, 590, "m unanswered 1"),
        ]:
            with self.subTest(name):
                self.assertIsNone(outcome(stations, before, every, ticks - 1))
                self.assertEqual(outcome(stations, before, every, ticks), told)


if __name__ == "__main__":
    unittest.main()
