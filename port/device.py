"""A serial device, or a pseudo-terminal: bytes of eight bits, no parity, one stop bit, and nobody else on it."""
import errno
import fcntl
import os
import select
import struct
import termios

RATES = (300, 600, 1200, 2400, 4800, 9600, 19200, 38400, 57600, 115200)

# What a driver is told of RS-485: that it is used, and that RTS stands while bytes are sent.
TIOCSRS485 = 0x542F
ENABLED, RTS_ON_SEND = 1, 2

WHY = {
    errno.ENOENT: "isn't there",
    errno.ENXIO: "isn't there",
    errno.ENODEV: "isn't there",
    errno.EACCES: "may not be opened by you: its group, often dialout, may",
    errno.EPERM: "may not be opened by you: its group, often dialout, may",
    errno.EBUSY: "is in use by another program",
    errno.ENOTTY: "is no serial device",
}


class Refused(Exception):
    """The device can't be used, and a sentence that says why."""


class Gone(Exception):
    """The device went away."""


class Device:
    """An open device. Its name is what messages call it."""

    def __init__(self, name, baud, is_rs485=False):
        self.name = name
        try:
            self.file = os.open(name, os.O_RDWR | os.O_NOCTTY | os.O_NONBLOCK)
        except OSError as error:
            raise Refused(f"{name} {WHY.get(error.errno, error.strerror)}") from None
        try:
            self._set_up(baud, is_rs485)
        except (OSError, termios.error) as error:
            os.close(self.file)
            number = error.args[0]
            raise Refused(f"{name} {WHY.get(number, os.strerror(number))}") from None

    def _set_up(self, baud, is_rs485):
        if not os.isatty(self.file):
            raise OSError(errno.ENOTTY, "")
        try:
            fcntl.flock(self.file, fcntl.LOCK_EX | fcntl.LOCK_NB)
        except BlockingIOError:
            raise OSError(errno.EBUSY, "") from None
        fcntl.ioctl(self.file, termios.TIOCEXCL)
        rate = getattr(termios, f"B{baud}")
        control = termios.CS8 | termios.CREAD | termios.CLOCAL
        letters = termios.tcgetattr(self.file)[6]
        letters[termios.VMIN], letters[termios.VTIME] = 1, 0
        termios.tcsetattr(self.file, termios.TCSANOW, [0, 0, control, 0, rate, rate, letters])
        if is_rs485:
            fcntl.ioctl(self.file, TIOCSRS485, struct.pack("=8I", ENABLED | RTS_ON_SEND, 0, 0, 0, 0, 0, 0, 0))

    def read(self):
        """The bytes that came, at least one: it is called where some have, or where the device went away."""
        try:
            data = os.read(self.file, 4096)
        except BlockingIOError:
            return b""
        except OSError:
            raise Gone from None
        if not data:
            raise Gone
        return data

    def write(self, data):
        """Writes all bytes, and comes back once they are on the wire, as far as the driver tells."""
        try:
            while data:
                select.select([], [self.file], [])
                data = data[os.write(self.file, data):]
            termios.tcdrain(self.file)
        except (OSError, termios.error):
            raise Gone from None

    def close(self):
        os.close(self.file)
