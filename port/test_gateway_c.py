"""The library's end of examples/c/gateway.c, which GATEWAY names, with CRCs, before a controller that df1-port serves over a line that loses
and damages bytes: the line is cut for a while, and the controller is started anew."""
import os
import pathlib
import re
import signal
import subprocess
import sys
import tempfile
import threading
import time
import unittest

from test_port import ASKING, DF1, HERE, SERVED, Relay, setUpModule  # noqa: F401

GATEWAY = os.environ.get("GATEWAY")
SECONDS = 20
CUT_AT, ANEW_AT = 25, 50  # after how many values


@unittest.skipUnless(GATEWAY, "GATEWAY names no built examples/c/gateway.c")
class BeforeAController(unittest.TestCase):
    def setUp(self):
        self.folder = pathlib.Path(tempfile.mkdtemp())
        (self.folder / "served.toml").write_text(SERVED)
        (self.folder / "asking.toml").write_text(ASKING)
        self.relay = Relay(lost=0.002, damaged=0.002)
        self.addCleanup(self.relay.close)
        self.server = self.served()
        self.gateway = subprocess.Popen(
            [GATEWAY, self.relay.names[0], "crc"], stdin=subprocess.PIPE, stdout=subprocess.PIPE, stderr=subprocess.PIPE, text=True
        )
        self.addCleanup(self.gateway.kill)
        self.shown, self.told = [], []
        self.readers = [threading.Thread(target=lines.extend, args=(pipe,)) for pipe, lines in [(self.gateway.stdout, self.shown), (self.gateway.stderr, self.told)]]
        for reader in self.readers:
            reader.start()

    def served(self):
        server = subprocess.Popen(
            [sys.executable, HERE, DF1, self.relay.names[1], "serve", "served.toml"], cwd=self.folder, stdout=subprocess.DEVNULL, stderr=subprocess.DEVNULL
        )
        self.addCleanup(server.wait)
        self.addCleanup(server.kill)
        return server

    def write_values(self):
        """Sets one word after another to the values from 1 on, and answers the last."""
        ends, value = time.monotonic() + SECONDS, 0
        while time.monotonic() < ends:
            value += 1
            self.gateway.stdin.write(f"N7:{value % 16}={value}\n")
            self.gateway.stdin.flush()
            time.sleep(0.2)
            if value == CUT_AT:
                self.relay.is_cut = True
                time.sleep(3)
                self.relay.is_cut = False
            if value == ANEW_AT:
                self.server.send_signal(signal.SIGINT)
                self.server.wait()
                self.server = self.served()
        self.gateway.stdin.close()
        self.assertEqual(self.gateway.wait(timeout=60), 0)
        for reader in self.readers:
            reader.join()
        return value

    def words(self):
        """The words of the controller, by df1-port."""
        for _ in range(5):
            ran = subprocess.run(
                [sys.executable, HERE, DF1, self.relay.names[0], "--plan", "asking.toml", "--state", "tns.json", "read", "N7:0,16"],
                cwd=self.folder, capture_output=True, text=True, timeout=60,
            )
            if ran.returncode == 0:
                return [int(value) for value in ran.stdout.split()[1:]]
        self.fail(ran.stdout + ran.stderr)

    def test_no_value_comes_back_and_none_that_is_told_as_set_is_missing(self):
        last = self.write_values()
        self.assertGreater(last, ANEW_AT + 16)
        words = self.words()
        settled = [int(line.split("=")[1].split(":")[0]) for line in self.told if line.endswith(": set\n")]
        self.assertGreater(len(settled), 30, self.told)
        for word, value in enumerate(words):
            # The latest value is there, or one that is told as set after which none is: so none was written a second time behind a later one.
            of_word = [one for one in settled if one % 16 == word and one > ANEW_AT]
            self.assertIn(value, [one for one in range(max(of_word, default=0), last + 1) if one % 16 == word or one == 0] + ([4660] if word == 0 else []))
        self.assertEqual([line for line in self.shown if not re.fullmatch(r"N7:\d+=\d+\n", line)], [])
        self.assertGreater(len(self.shown), 30)


if __name__ == "__main__":
    unittest.main()
