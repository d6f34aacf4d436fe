"""df1-port over pseudo-terminals: what an address asks for, what a device refuses, and two ends with a relay between them that loses and damages bytes."""
import os
import pathlib
import random
import select
import signal
import subprocess
import sys
import tempfile
import threading
import time
import tty
import unittest

HERE = pathlib.Path(__file__).resolve().parent
sys.path.insert(0, str(HERE))

import frames  # noqa: E402
import plan as plans  # noqa: E402
import words  # noqa: E402

# The built program, which .ci/port names.
DF1 = os.environ.get("DF1", str(HERE.parent / "crates/df1/out/df1"))

SERVED = """check = "crc"
node = 1
peer = 0
max_naks = 20
max_enqs = 20
[[file]]
number = 7
type = "89"
count = 150
words = "3412"
[[file]]
number = 8
type = "8A"
count = 4
[[file]]
number = 3
type = "85"
count = 4
"""
ASKING = """check = "crc"
node = 0
peer = 1
max_naks = 20
max_enqs = 20
reply_ticks = 300
"""


def setUpModule():
    # Where these run in the background of a shell Ctrl-C is ignored, and so it would be in what they start.
    signal.signal(signal.SIGINT, signal.default_int_handler)


class Words(unittest.TestCase):
    def test_an_address_asks_for_its_words(self):
        for text, payloads in [
            ("N7:0", ["0fa20207890000"]),
            ("n7:3,2", ["0fa20407890300"]),
            ("F8:1", ["0fa204088a0100"]),
            ("T4:1.ACC", ["0fa20204860102"]),
            ("N7:300", ["0fa2020789ff2c0100"]),
            ("N255:0,123", ["0fa2f4ffff00890000", "0fa202ffff00897a00"]),
        ]:
            self.assertEqual([payload.hex() for payload in words.Address(text).reads()], payloads)

    def test_values_are_written_low_byte_first(self):
        for text, values, payload in [
            ("N7:2", ["0xABCD"], "0faa0207890200cdab"),
            ("N7:2", ["-2", "1"], "0faa0407890200feff0100"),
            ("B3:1/5", ["1"], "0fab020385010020002000"),
            ("B3:1/5", ["0"], "0fab020385010020000000"),
            ("F8:0", ["1.5"], "0faa04088a00000000c03f"),
        ]:
            self.assertEqual([it.hex() for it in words.Address(text).writes(values)], [payload])

    def test_many_values_are_written_by_commands_that_fit(self):
        for text, values, sizes in (("N7:0", 117, [232, 2]), ("F8:0", 59, [232, 4]), ("N999:9000", 116, [232])):
            payloads = words.Address(text).writes(["1"] * values)
            self.assertEqual([payload[2] for payload in payloads], sizes)
            self.assertLessEqual(max(map(len, payloads)), 245)

    def test_what_is_no_address_or_no_value_is_told(self):
        for text in ["X7:0", "N7", "T4:1", "T4:1.LEN", "N7:3/16", "F8:0/1", "N7:0,0", "T4:0.ACC,2"]:
            self.assertRaises(words.Wrong, words.Address, text)
        for text, value in [("N7:0", "65536"), ("N7:0", "one"), ("B3:0/1", "2"), ("N7:0", "-32769")]:
            self.assertRaises(words.Wrong, words.Address(text).writes, [value])

    def test_replies_tell_values_and_refusals(self):
        self.assertEqual(words.Address("N7:0,2").values(bytes.fromhex("3412FEFF")), ["4660", "-2"])
        self.assertEqual(words.Address("F8:0").values(bytes.fromhex("0000C03F")), ["1.5"])
        self.assertEqual(words.Address("N7:0/2").values(bytes.fromhex("0400")), ["1"])
        self.assertIsNone(words.fault_of(bytes.fromhex("00014F000100")))
        self.assertIn("no such file", words.fault_of(bytes.fromhex("00014FF0010006")))
        self.assertIn("STS 10", words.fault_of(bytes.fromhex("00014F100100")))

    def test_frames_are_seen_as_they_come_by(self):
        watcher = frames.Watcher(False)
        line = bytes.fromhex("55 1006 1002 07000600 1015 10100000 1010 1003 D3 1002 0100 1003 00 10020100060001001003F8")
        bodies = [body.hex() for part in (line[:9], line[9:]) for body in watcher.bodies(part)]
        self.assertEqual(bodies, ["0700060010000010", "010006000100"])

    def test_a_plan_keeps_its_settings_with_other_commands(self):
        text = plans.issuing({"tns": 5, "check": "crc", "embed": True, "file": [{"number": 7, "type": "89", "count": 2}]}, [b"\x06\x00"], 9)
        self.assertEqual(text, 'tns = 9\ncheck = "crc"\nembed = true\nfile = [{number = 7, type = "89", count = 2}]\nissue = ["0600"]\n')
        # 67 ticks of responses and 100 of the reply, by the first settings.
        self.assertEqual((plans.most_ticks({}, 1, 0), plans.most_ticks({}, 2, 1)), (100, 267))


class Relay:
    """Two pseudo-terminals with a line between them, which loses and damages bytes, and can be cut."""

    def __init__(self, lost=0.0, damaged=0.0, seed=1):
        self.lost, self.damaged, self.chance = lost, damaged, random.Random(seed)
        self.is_cut, self.is_over = False, False
        self.masters, self.names, self.slaves = [], [], []
        for _ in range(2):
            master, slave = os.openpty()
            tty.setraw(slave)
            self.masters.append(master)
            self.slaves.append(slave)
            self.names.append(os.ttyname(slave))
        self.thread = threading.Thread(target=self.carry, daemon=True)
        self.thread.start()

    def carry(self):
        while not self.is_over:
            ready, _, _ = select.select(self.masters, [], [], 0.05)
            for master in ready:
                other = self.masters[1 - self.masters.index(master)]
                data = bytearray(b for b in os.read(master, 4096) if not self.is_cut and self.chance.random() >= self.lost)
                for place in range(len(data)):
                    if self.chance.random() < self.damaged:
                        data[place] ^= 1 << self.chance.randrange(8)
                os.write(other, bytes(data))

    def close(self):
        self.is_over = True
        self.thread.join()
        for file in [*self.masters, *self.slaves]:
            os.close(file)


class Ports(unittest.TestCase):
    def setUp(self):
        self.folder = pathlib.Path(tempfile.mkdtemp())
        (self.folder / "served.toml").write_text(SERVED)
        (self.folder / "asking.toml").write_text(ASKING)
        self.tasks = []

    def tearDown(self):
        for task in self.tasks:
            task.kill()
            task.communicate()

    def begun(self, *given):
        task = subprocess.Popen([sys.executable, HERE, DF1, *given], cwd=self.folder, stdout=subprocess.PIPE, stderr=subprocess.PIPE, text=True)
        self.tasks.append(task)
        return task

    def ran(self, *given, timeout=60):
        task = self.begun(*given)
        out, told = task.communicate(timeout=timeout)
        return task.returncode, out, told

    def asked(self, relay, *given):
        return self.ran(relay.names[0], "--plan", "asking.toml", "--state", "tns.json", *given)

    def served(self, relay, *given):
        task = self.begun(relay.names[1], *given, "serve", "served.toml")
        # It is there once it answers an enquiry.
        deadline = time.monotonic() + 20
        while self.asked(relay, "read", "N7:0")[0] != 0 and time.monotonic() < deadline:
            self.assertIsNone(task.poll())
        return task

    def done(self, relay, *given):
        """What a command prints that is asked again where no reply came, as a late ACK on such a line can make it."""
        for _ in range(5):
            status, out, told = self.asked(relay, *given)
            if status == 0:
                return out
            self.assertIn("no reply came", out, told)
        self.fail(f"five times no reply to {given}")

    def test_a_controller_is_read_and_written_by_address(self):
        relay = Relay()
        self.addCleanup(relay.close)
        self.served(relay, "--record", "trace.log")
        self.assertEqual(self.asked(relay, "read", "N7:0", "F8:0"), (0, "N7:0 4660\nF8:0 0\n", ""))
        self.assertEqual(self.asked(relay, "write", "N7:1=-5,6", "F8:1=2.5", "B3:0/3=1")[:2], (0, "N7:1 written\nF8:1 written\nB3:0/3 written\n"))
        self.assertEqual(self.asked(relay, "read", "N7:0,3", "F8:1", "B3:0/3", "B3:0")[1], "N7:0,3 4660 -5 6\nF8:1 2.5\nB3:0/3 1\nB3:0 0000000000001000\n")
        status, out, _ = self.asked(relay, "read", "N9:0")
        self.assertEqual((status, out), (1, "N9:0 refused, STS F0, EXT STS 06: there is no such file, element or sub-element\n"))
        # What was recorded says what went over the line, and of either way is whole.
        said = [line.split(" -- ")[1].split(", TNS ")[0] for line in (self.folder / "trace.log").read_text().splitlines() if " -- " in line]
        names = ["read N7:0", "reply, N7:0 = 1234", "write N7:1 = FFFB 0006", "masked write B3:0, mask 0008 = 0008", "reply, done", "reply, F8:1 = 2.5"]
        self.assertEqual([one for one in names if one not in said], [])
        for way in ("RX", "TX"):
            data = b"".join(bytes.fromhex(line.split(" ", 2)[2]) for line in (self.folder / "trace.log").read_text().splitlines() if f" {way} " in line)
            told = subprocess.run([DF1, "check", "full", "crc"], input=data, capture_output=True).stdout.decode()
            self.assertRegex(told, r"^heard \d+ bad 0 open 0\n$")

    def test_commands_of_a_plan_are_issued(self):
        relay = Relay()
        self.addCleanup(relay.close)
        self.served(relay)
        (self.folder / "issuing.toml").write_text(ASKING + 'tns = 7000\nissue = ["060055", "0FA20207890000"]\n')
        status, _, told = self.ran(relay.names[0], "issue", "issuing.toml")
        self.assertEqual(status, 0)
        self.assertIn("1 answered 00014600581B55\n2 answered 00014F00591B3412\n", told)

    def test_whole_files_are_pulled_and_pushed(self):
        relay = Relay()
        self.addCleanup(relay.close)
        self.served(relay)
        for command, words_of, status, told in [
            ("pull", ("7", "2"), 0, "pulled 34120000\n"),
            ("push", ("7", "0100FEFF" + 148 * "2A00"), 0, "pushed 2\n"),
            ("pull", ("7", "151"), 1, "refused 2 F0 0A\n"),
            ("pull", ("9", "1"), 1, "refused 1 F0 06\n"),
        ]:
            with self.subTest(command=command, words=words_of):
                self.assertEqual(self.ran(relay.names[0], "--state", "tns.json", command, "asking.toml", *words_of), (status, "", told))
        self.assertEqual(self.asked(relay, "read", "N7:0,3", "N7:149"), (0, "N7:0,3 1 -2 42\nN7:149 42\n", ""))
        self.assertEqual(self.ran(relay.names[0], "pull", "asking.toml", "7", "3001")[0], 2)

    def test_nothing_is_lost_on_a_line_that_loses_and_damages(self):
        relay = Relay(lost=0.01, damaged=0.003)
        self.addCleanup(relay.close)
        self.served(relay)
        begun, rounds = time.monotonic(), 0
        while time.monotonic() - begun < 10 or rounds < 3:
            rounds += 1
            self.done(relay, "write", f"N7:{rounds % 90}={rounds},{rounds + 1}")
            self.assertEqual(self.done(relay, "read", f"N7:{rounds % 90},2"), f"N7:{rounds % 90},2 {rounds} {rounds + 1}\n")

    def test_a_line_that_was_cut_is_used_again(self):
        relay = Relay()
        self.addCleanup(relay.close)
        self.served(relay)
        relay.is_cut = True
        (self.folder / "asking.toml").write_text(ASKING.replace("= 20", "= 1"))
        status, out, _ = self.asked(relay, "read", "N7:0")
        self.assertEqual((status, out), (1, "N7:0 undelivered: no reply came\n"))
        relay.is_cut = False
        self.assertEqual(self.asked(relay, "read", "N7:0")[:2], (0, "N7:0 4660\n"))

    def test_a_device_that_goes_away_and_an_interrupt_end_it_cleanly(self):
        relay = Relay()
        task = self.served(relay)
        task.send_signal(signal.SIGINT)
        self.assertEqual((task.communicate(timeout=20)[1], task.returncode), ("df1-port: interrupted\n", 130))
        task = self.served(relay)
        relay.close()
        self.assertEqual((task.communicate(timeout=20)[1], task.returncode), (f"df1-port: {relay.names[1]} went away\n", 75))

    def test_a_stop_is_one_tick_when_it_goes_on(self):
        relay = Relay()
        self.addCleanup(relay.close)
        task = self.served(relay)
        task.send_signal(signal.SIGSTOP)
        time.sleep(2.5)
        task.send_signal(signal.SIGCONT)
        self.assertEqual(self.asked(relay, "read", "N7:0")[:2], (0, "N7:0 4660\n"))

    def test_what_is_no_device_is_told(self):
        relay = Relay()
        self.addCleanup(relay.close)
        for name, told in [("/dev/none", "isn't there"), ("/dev/null", "is no serial device")]:
            self.assertEqual(self.ran(name, "serve", "served.toml"), (75, "", f"df1-port: {name} {told}\n"))
        self.served(relay)
        self.assertEqual(self.ran(relay.names[1], "serve", "served.toml"), (75, "", f"df1-port: {relay.names[1]} is in use by another program\n"))
        self.assertEqual(self.ran(relay.names[0], "read", "N7")[0], 2)
        self.assertEqual(self.ran(relay.names[0], "serve", "none.toml")[0], 2)


if __name__ == "__main__":
    unittest.main()
