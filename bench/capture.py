#!/usr/bin/env python3
"""Makes captures as long as the limit allows, and times the built program on them.

Usage: bench/capture.py [PROGRAM]     (crates/df1/out/df1 where PROGRAM is left out)

For `check full bcc`, `check full crc` and `dissect full crc`, over each capture, it prints the bytes of the capture, the
megabytes of it a second, by the clock and of a processor, and the most memory that the run took. The lines of a dissection
go to the null device.

- frames: commands that read a word, one after another, each with the check of the line;
- noise: bytes of a generator of random numbers, the same in each run.
"""
import os
import random
import subprocess
import sys
import tempfile

import timed

CAPTURE = 268_435_456
PIECE = 1_048_576

CASES = [("check", "bcc"), ("check", "crc"), ("dissect", "crc")]


def eight_shifts(register):
    """The register of the CRC after a byte's eight shifts."""
    for _ in range(8):
        register = register >> 1 ^ (0xA001 if register & 1 else 0)
    return register


TABLE = [eight_shifts(register) for register in range(256)]


def crc(covered):
    register = 0
    for byte in covered:
        register = register >> 8 ^ TABLE[(register ^ byte) & 0xFF]
    return bytes([register & 0xFF, register >> 8])


def check_bytes(check, body):
    return bytes([-sum(body) % 256]) if check == "bcc" else crc(body + b"\x03")


def frame(check, tns):
    """A protected logical read of one word with this TNS."""
    body = bytes([0x01, 0x00, 0x0F, 0x00, tns % 256, tns // 256, 0xA2, 0x02, 0x07, 0x89, 0x00, 0x00])
    return b"\x10\x02" + body.replace(b"\x10", b"\x10\x10") + b"\x10\x03" + check_bytes(check, body)


def write_frames(file, check):
    """Writes whole rounds of all transaction numbers, and a part of one more."""
    one_round = b"".join(frame(check, tns) for tns in range(65_536))
    left = CAPTURE
    while left > 0:
        left -= file.write(one_round[:left])


def write_noise(file):
    numbers = random.Random(1)
    for _ in range(CAPTURE // PIECE):
        file.write(numbers.randbytes(PIECE))


def write_capture(kind, check, path):
    with open(path, "wb") as file:
        if kind == "frames":
            write_frames(file, check)
        else:
            write_noise(file)


def main():
    if sys.argv[1:2] == ["--write"]:
        write_capture(*sys.argv[2:5])
        return
    program = timed.program()
    with tempfile.TemporaryDirectory() as folder:
        capture = os.path.join(folder, "capture")
        for kind in ("frames", "noise"):
            for command, check in CASES:
                subprocess.run([sys.executable, os.path.abspath(__file__), "--write", kind, check, capture], check=True)
                # 1 is for a capture with a fault of the line, or with an item that its end cuts off.
                taken, used, peak = timed.run_used(program, [command, "full", check], capture, os.devnull, ends=(0, 1))
                print(f"{command} full {check}, {kind}: {CAPTURE} bytes: {taken:.2f} s, {CAPTURE / taken / 1e6:.1f} MB/s, "
                      f"of a processor {used:.2f} s, {CAPTURE / used / 1e6:.1f} MB/s, peak {peak / 1024:.0f} MiB", flush=True)


if __name__ == "__main__":
    main()
