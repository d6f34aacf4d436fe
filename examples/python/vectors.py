#!/usr/bin/env python3
"""Runs the conformance cases of vectors.json over code of your own: python3 vectors.py [COMMAND WORD..]

The cases of checks and frames run `bcc`, `crc` and `frame` below: put your own in their place. The cases of a station run the
command that COMMAND and its words name, once for each case. It is a program that speaks full-duplex DF1 with BCC on its standard
input and output, as `df1 serve PLAN raw` does, with the files of the cases. Without a command no station is run. The status is 0
if no case differs."""
import json
import pathlib
import subprocess
import sys

DLE, STX, ETX, ACK = 0x10, 0x02, 0x03, 0x06
VECTORS = pathlib.Path(__file__).resolve().parent.parent / "vectors.json"


def bcc(covered):
    """Returns the BCC, the two's complement of the 8-bit sum."""
    return bytes([-sum(covered) % 256])


def crc(covered):
    """Returns the CRC-16 with the reflected polynomial A001, from a register of 0, its low byte first."""
    register = 0
    for byte in covered:
        register ^= byte
        for _ in range(8):
            register = register >> 1 ^ (0xA001 if register & 1 else 0)
    return register.to_bytes(2, "little")


def frame(body, with_crc):
    """Returns the full-duplex frame of a body: each DLE of the body is doubled, and the CRC covers ETX too."""
    check = crc(body + bytes([ETX])) if with_crc else bcc(body)
    return bytes([DLE, STX]) + body.replace(b"\x10", b"\x10\x10") + bytes([DLE, ETX]) + check


def body_of(line):
    """Returns the body of the frame that follows the ACK of a command, or what was received in its place."""
    begin, end = bytes([DLE, ACK, DLE, STX]), bytes([DLE, ETX])
    if not line.startswith(begin) or line[-3:-1] != end:
        return line
    body = line[len(begin):-3].replace(b"\x10\x10", b"\x10")
    return body if frame(body, False) == line[2:] else line


def answer(command, words):
    """Returns the body of the reply to a command, from a newly started station."""
    ran = subprocess.run(words, input=frame(command, False), capture_output=True, timeout=60)
    return body_of(ran.stdout)


def made(kind, given, words):
    if kind == "bcc":
        return bcc(given)
    if kind == "crc":
        return crc(given)
    if kind in ("frame-bcc", "frame-crc"):
        return frame(given, kind == "frame-crc")
    return answer(given, words)


def main(words):
    cases = json.loads(VECTORS.read_text(encoding="utf-8"))["cases"]
    run = [case for case in cases if words or case["kind"] != "answer"]
    for case in run:
        got = made(case["kind"], bytes.fromhex(case["input"]), words)
        if got != bytes.fromhex(case["want"]):
            print(f"case {case['place']} differs: {case['kind']} of {case['input']} is {case['want']}, not {got.hex().upper()}")
            return 1
    print(f"cases {len(run)}")
    return 0


if __name__ == "__main__":
    sys.exit(main(sys.argv[1:]))
