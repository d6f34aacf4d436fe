#!/usr/bin/env python3
"""Serves 64 MB of commands raw, and times the built program on it.

Usage: bench/serve.py [PROGRAM]     (crates/df1/out/df1 where PROGRAM is left out)

Each command reads a word of a file, and the ACK of its reply follows it. It prints the bytes of the input and of the
output, the megabytes of input a second, and the most memory that the run took.
"""
import os
import subprocess
import sys
import tempfile

import timed

INPUT = 64_000_000

PLAN = '[[file]]\nnumber = 7\ntype = "89"\ncount = 16\nwords = "3412"\n'


def exchange(tns):
    """A protected logical read of one word with this TNS, and the ACK of its reply."""
    body = bytes([0x01, 0x00, 0x0F, 0x00, tns % 256, tns // 256, 0xA2, 0x02, 0x07, 0x89, 0x00, 0x00])
    return b"\x10\x02" + body.replace(b"\x10", b"\x10\x10") + b"\x10\x03" + bytes([-sum(body) % 256]) + b"\x10\x06"


def write_input(path):
    """Writes whole rounds of all transaction numbers, and a part of one more."""
    one_round = b"".join(exchange(tns) for tns in range(65_536))
    with open(path, "wb") as file:
        left = INPUT
        while left > 0:
            left -= file.write(one_round[:left])


def main():
    if sys.argv[1:2] == ["--write"]:
        write_input(sys.argv[2])
        return
    program = timed.program()
    with tempfile.TemporaryDirectory() as folder:
        subprocess.run([sys.executable, os.path.abspath(__file__), "--write", os.path.join(folder, "line")], check=True)
        with open(os.path.join(folder, "plan"), "w") as file:
            file.write(PLAN)
        wire = os.path.join(folder, "wire")
        taken, peak = timed.run(program, ["serve", "plan", "raw"], os.path.join(folder, "line"), wire, folder)
        given = os.path.getsize(wire)
        print(f"serve: {INPUT} bytes, {given} bytes given: {taken:.2f} s, {INPUT / taken / 1e6:.1f} MB/s, peak {peak / 1024:.0f} MiB")


if __name__ == "__main__":
    main()
