#!/usr/bin/env python3
"""Makes large scripts and times the built program on them.

Usage: bench/replay.py [PROGRAM]     (crates/df1/out/df1 where PROGRAM is left out)

For each script it prints the bytes of the script and of its report, the events a second, and the most memory that the
run took:

- drill: 20,000 commands; in turn an ordinary exchange, a damaged frame, a lost ACK, and a lost ACK with a foreign NAK;
- steps: 16 MB of script, each step a line of its own;
- ticks: 65,000 commands and 4,000,000 events, nearly all of them ticks;
- lossless: 65,000 ordinary exchanges of an echo;
- windowed: 65,000 exchanges of an echo, sixteen commands out at a time;
- sources: 65,000 exchanges of an echo, of 200 sources in turn, of each of which a command waits;
- words: the first values of 256,000 words, each a line of its own;
- polled8, polled32: 20,000 polls over 8 stations, and 15,000 over 32, each byte of the master delivered to every station.
"""
import os
import subprocess
import sys
import tempfile

import timed

LIMIT = 16_777_216
EVENTS = 4_000_000

ORDINARY = ["ak 23", "ad 23", "bk 15", "bd 15", "ak 2", "ad 2"]
DAMAGED = ["ak 23", "ad 2", "ac 01", "ad 21", "bk 2", "bd 2", "ak 23", "ad 23", "bk 15", "bd 15", "ak 2", "ad 2"]
LOST_ACK = ["ak 23", "ad 23", "bk 2", "bx 2", "at 10", "ak 2", "ad 2", "bk 15", "bd 15", "ak 2", "ad 2"]
FOREIGN_NAK = ["ak 23", "ad 23", "bk 2", "bx 2", "bn 1015", "ak 23", "ad 23", "bk 15", "bd 15", "ak 2", "ad 2"]


def payload(i):
    """A write of the word i to an element of file 7."""
    return f"0FAA020789{i % 16:02X}00{i % 256:02X}{i // 256 % 256:02X}"


def drill(rounds=20_000):
    lines = ["file b 7 89 16"]
    for i in range(1, rounds + 1):
        lines.append("ai " + payload(i))
        lines += (ORDINARY, DAMAGED, LOST_ACK, FOREIGN_NAK)[i % 4]
    return "\n".join(lines + ["end"]) + "\n"


def steps():
    """Ordinary exchanges, each take and delivery spelled alone, up to the limits of a script."""
    head = "file b 7 89 16\n"
    size, count, parts = len(head), 0, [head]
    for i in range(1, 65_536):
        text = "ai " + payload(i) + "\n"
        for line in ORDINARY:
            verb, n = line.split()
            text += f"{verb} 1\n" * int(n)
        if size + len(text) > LIMIT - 10 or count + 81 > EVENTS:
            break
        size, count = size + len(text), count + 81
        parts.append(text)
    return "".join(parts) + "end\n"


def ticks(commands=65_000):
    lines = ["ai " + payload(i) for i in range(1, commands + 1)]
    return "\n".join(lines + [f"at {EVENTS - commands}", "end"]) + "\n"


def doubled_of(number):
    """How many bytes of a command's TNS are DLE, which a frame has twice."""
    return (number % 256 == 0x10) + (number // 256 == 0x10)


def lossless(commands=65_000):
    lines = []
    for i in range(1, commands + 1):
        frame, answer = 12 + doubled_of(i), 14 + doubled_of(i)
        lines += ["ai 0600", f"ak {frame}", f"ad {frame}", f"bk {answer}", f"bd {answer}", "ak 2", "ad 2"]
    return "\n".join(lines + ["end"]) + "\n"


def windowed(commands=64_992, window=16):
    """As many commands are given one after another as may be out, and then their replies."""
    lines = ["set a.window 16", "set b.room 16"]
    for first in range(1, commands, window):
        lengths = [12 + doubled_of(number) for number in range(first, first + window)]
        lines += ["ai 0600"] * window
        for length in lengths:
            lines += [f"ak {length}", f"ad {length}", "bk 2", "bd 2"]
        for length in lengths:
            lines += [f"bk {length}", f"bd {length}", "ak 2", "ad 2"]
    return "\n".join(lines + ["end"]) + "\n"


def sources(commands=65_000, count=200):
    """Each source issues a command, and all wait but for one."""
    lines = []
    for first in range(1, commands, count):
        lines += [f"ai {source} 0600" for source in range(count)]
        for source in range(count):
            length = 12 + doubled_of(first + source) + (source == 0x10)
            lines += [f"ak {length}", f"ad {length}", f"bk {length + 2}", f"bd {length + 2}", "ak 2", "ad 2"]
    return "\n".join(lines + ["end"]) + "\n"


def words(files=256, count=1000):
    lines = [f"file a {number} 89 {count}" for number in range(files)]
    lines += [f"word a {number} {index} {(number + index) % 65536:04X}" for number in range(files) for index in range(count)]
    return "\n".join(lines + ["end"]) + "\n"


def polled(stations, rounds):
    numbers = range(17, 17 + stations)
    lines = ["set mode half"] + [f"station {number}" for number in numbers]
    for i in range(rounds):
        lines += ["mt", "mk 4"] + [f"md {number} 4" for number in numbers] + [f"{numbers[i % stations]}{verb} 2" for verb in "kd"]
    return "\n".join(lines + ["end"]) + "\n"


SCRIPTS = {
    "drill": drill,
    "steps": steps,
    "ticks": ticks,
    "lossless": lossless,
    "windowed": windowed,
    "sources": sources,
    "words": words,
    "polled8": lambda: polled(8, 20_000),
    "polled32": lambda: polled(32, 15_000),
}


def events(text):
    total, stations = 0, 0
    for line in text.splitlines():
        parts = line.split()
        end, verb = parts[0][:-1], parts[0][-1]
        stations += parts[0] == "station"
        if end not in ("a", "b", "m") and not end.isdigit():
            continue
        operands = parts[2:] if end == "m" and verb in "idxcn" else parts[1:]
        if verb in "ktdx":
            count = int(operands[0]) if operands else 1
            total += count * max(stations, 1) if end + verb == "mk" else count
        else:
            total += len(operands[0]) // 2 if verb == "n" else 1
    return total


def made(name, path):
    """Writes a script and answers its events."""
    code = subprocess.run([sys.executable, os.path.abspath(__file__), "--write", name, path], stdout=subprocess.PIPE, check=True)
    return int(code.stdout)


def main():
    if sys.argv[1:2] == ["--write"]:
        text = SCRIPTS[sys.argv[2]]()
        with open(sys.argv[3], "w") as file:
            file.write(text)
        print(events(text))
        return
    program = timed.program()
    with tempfile.TemporaryDirectory() as folder:
        script, report = os.path.join(folder, "script"), os.path.join(folder, "report")
        for name in SCRIPTS:
            count = made(name, script)
            taken, peak = timed.run(program, ["replay"], script, report)
            size = os.path.getsize(script)
            print(f"{name}: {size} bytes, {count} events, {os.path.getsize(report)} bytes of report: {taken:.2f} s, "
                  f"{size / taken / 1e6:.1f} MB/s, {count / taken:,.0f} events/s, peak {peak / 1024:.0f} MiB")


if __name__ == "__main__":
    main()
