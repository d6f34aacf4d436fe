"""An end of `df1` on a device: what comes is told to it as records, a clock as ticks, and what it gives goes out."""
import datetime
import os
import select
import subprocess
import tempfile
import time

import frames
from pccc.exchanges import Exchanges
from pccc.fields import read_message

BYTE, TICK, DRAIN = b"\x00", b"\x01\x00", b"\x03\x00"


class Trace:
    """A file that keeps what went each way and when, as lines that docs/TRACES.md reads, and what the whole messages say; or none."""

    def __init__(self, name):
        self.file = open(name, "a", encoding="ascii") if name else None
        self.exchanges = Exchanges()

    def keep(self, way, data, bodies):
        """Keeps bytes that went one way, and the bodies of the frames that ended in them."""
        if not self.file:
            return
        now = datetime.datetime.now().strftime("%H:%M:%S.%f")[:-3]
        self.file.write(f"{now} {way} {data.hex(' ').upper()}\n")
        for message in map(read_message, bodies):
            self.exchanges.keep(message)
            self.file.write(f"{now} -- {self.exchanges.name(message)}, TNS {message.tns:04X}\n")
        self.file.flush()

    def close(self):
        if self.file:
            self.file.close()


class End:
    """A run of the program `df1` on a device. `over` is asked after each tick whether to end it."""

    def __init__(self, program, words, device, tick, trace, with_crc):
        self.device, self.tick, self.trace = device, tick, trace
        self.told = tempfile.TemporaryFile()
        self.child = subprocess.Popen([program, *words], stdin=subprocess.PIPE, stdout=subprocess.PIPE, stderr=self.told, bufsize=0, start_new_session=True)
        self.ticks = 0
        self.came, self.went = frames.Watcher(with_crc), frames.Watcher(with_crc)
        self.received, self.sent = [], []  # bodies

    def run(self, over):
        """Runs until `over` says so, the program ends by itself, or the device goes away."""
        due = time.monotonic() + self.tick
        self._tell(DRAIN)
        while True:
            now = time.monotonic()
            if now >= due:
                # A tick that is late is one tick: what stood still meanwhile isn't caught up.
                self._tell(TICK + DRAIN)
                self.ticks += 1
                due = now + self.tick
                if over(self):
                    return
            ready, _, _ = select.select([self.device.file, self.child.stdout], [], [], max(0, due - now))
            if self.device.file in ready:
                self._take_in()
            if self.child.stdout in ready:
                given = os.read(self.child.stdout.fileno(), 4096)
                if not given:
                    return
                self._give_out(given)
                due = max(due, time.monotonic() + self.tick)

    def _tell(self, records):
        try:
            self.child.stdin.write(records)
        except BrokenPipeError:  # it has ended, which its output tells
            pass

    def _take_in(self):
        data = self.device.read()
        if data:
            bodies = list(self.came.bodies(data))
            self.trace.keep("RX", data, bodies)
            self.received += bodies
            self._tell(b"".join(BYTE + bytes([byte]) + DRAIN for byte in data))

    def _give_out(self, data):
        bodies = list(self.went.bodies(data))
        self.trace.keep("TX", data, bodies)
        self.sent += bodies
        self.device.write(data)

    def close(self):
        """Ends the program, and answers its status and what it told."""
        self.child.stdin.close()
        self.child.stdout.close()
        status = self.child.wait()
        self.told.seek(0)
        return status, self.told.read().decode("ascii", "replace")
