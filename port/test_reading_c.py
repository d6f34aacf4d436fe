"""The library's end of examples/c/reading.c, which READING names, over a pseudo-terminal before a controller that df1-port serves."""
import os
import pathlib
import subprocess
import sys
import tempfile
import tty
import unittest

from test_port import DF1, HERE, SERVED, setUpModule  # noqa: F401

READING = os.environ.get("READING")


@unittest.skipUnless(READING, "READING names no built examples/c/reading.c")
class OverAPseudoTerminal(unittest.TestCase):
    def test_the_word_is_read_again_and_again(self):
        folder = pathlib.Path(tempfile.mkdtemp())
        (folder / "served.toml").write_text(SERVED.replace('check = "crc"', 'check = "bcc"'))
        line, device = os.openpty()
        tty.setraw(device)
        server = subprocess.Popen([sys.executable, HERE, DF1, os.ttyname(device), "serve", "served.toml"], cwd=folder, stdout=subprocess.DEVNULL, stderr=subprocess.DEVNULL)
        self.addCleanup(server.wait)
        self.addCleanup(server.kill)
        with subprocess.Popen([READING], stdin=line, stdout=line, stderr=subprocess.PIPE, text=True) as reading:
            self.assertEqual([reading.stderr.readline() for _ in range(3)], ["N7:0 = 4660\n"] * 3)
            reading.kill()


if __name__ == "__main__":
    unittest.main()
