"""The library's end of examples/c/serve.c, which SERVE names, with CRCs, read and written by df1-port over a line that loses and damages bytes."""
import os
import pathlib
import signal
import subprocess
import sys
import tempfile
import time
import unittest

from test_port import ASKING, DF1, HERE, Relay

SERVE = os.environ.get("SERVE")
SECONDS = 15


@unittest.skipUnless(SERVE, "SERVE names no built examples/c/serve.c")
class ServedByTheLibrary(unittest.TestCase):
    def setUp(self):
        self.folder = pathlib.Path(tempfile.mkdtemp())
        (self.folder / "asking.toml").write_text(ASKING)
        self.relay = Relay(lost=0.002, damaged=0.002)
        self.addCleanup(self.relay.close)
        self.server = subprocess.Popen([SERVE, self.relay.names[1], "crc"], stderr=subprocess.DEVNULL)
        self.addCleanup(self.server.wait)
        self.addCleanup(self.server.kill)

    def done(self, *given):
        """What a command prints that is asked again where no reply came."""
        for _ in range(5):
            ran = subprocess.run(
                [sys.executable, HERE, DF1, self.relay.names[0], "--plan", "asking.toml", "--state", "tns.json", *given],
                cwd=self.folder, capture_output=True, text=True, timeout=60,
            )
            if ran.returncode == 0:
                return ran.stdout
            self.assertIn("no reply came", ran.stdout, ran.stderr)
        self.fail(f"five times no reply to {given}")

    def test_every_word_is_read_as_it_was_written(self):
        ends, value = time.monotonic() + SECONDS, 0
        self.assertEqual(self.done("read", "N7:0"), "N7:0 4660\n")
        while time.monotonic() < ends:
            value += 1
            word = f"N7:{value % 16}"
            self.assertEqual(self.done("write", f"{word}={value}"), f"{word} written\n")
            self.assertEqual(self.done("read", word), f"{word} {value}\n")
        self.assertGreater(value, 2)

    def test_it_serves_on_after_a_stop(self):
        self.server.send_signal(signal.SIGSTOP)
        time.sleep(2.5)
        self.server.send_signal(signal.SIGCONT)
        self.assertEqual(self.done("read", "N7:0"), "N7:0 4660\n")


if __name__ == "__main__":
    unittest.main()
