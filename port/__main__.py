"""df1-port DEVICE [OPTION..] COMMAND: an end of `df1` on a serial device."""
import argparse
import sys

import device
import plan as plans
import talk
import words
from end import Trace
from tns import Numbers

GONE, INTERRUPTED = 75, 130

EPILOG = """commands:
  serve PLAN              serves the plan's end until the device goes away or Ctrl-C
  issue PLAN              issues the plan's commands, and tells the outcome of each
  pull PLAN FILE WORDS    reads the first words of a data file, 1 to 3,000: pulled HEX
  push PLAN FILE HEX      writes them, four digits a word, the low byte first: pushed K
  read ADDRESS..          reads by address: N7:0  N7:0,10  B3:1/5  F8:0  T4:1.ACC
  write ADDRESS=VALUE..   writes: N7:3=42  N7:0=1,2,3  B3:1/5=1  F8:0=1.5

With read and write --plan names a plan whose node, peer, check and ticks are used. A status of 0 is that all was done, 1 that a command wasn't answered or
was refused, 2 that the words are wrong, 75 that the device can't be used or went away, 130 that it was interrupted; any other is that of df1.
One run of issue has at most 65,535 commands; one of serve or issue takes at most 268,435,456 bytes of records, four for each byte and each tick, which is
under 7.8 days at 10 ms a tick, and then ends, its tables with it. Nothing of df1-port itself is proved; what it hands to df1 is."""


def arguments(given):
    parser = argparse.ArgumentParser(prog="df1-port", description=__doc__, epilog=EPILOG, formatter_class=argparse.RawDescriptionHelpFormatter)
    parser.add_argument("device", help="a serial device or a pseudo-terminal")
    parser.add_argument("--baud", type=int, choices=device.RATES, default=19200, help="bits a second (19200)")
    parser.add_argument("--tick", type=float, default=10, metavar="MS", help="milliseconds of a tick (10)")
    parser.add_argument("--rs485", action="store_true", help="have the driver raise RTS while it sends")
    parser.add_argument("--record", metavar="FILE", help="keep what went each way, with its time, as docs/TRACES.md reads it")
    parser.add_argument("--plan", metavar="PLAN", help="the plan whose settings read and write use")
    parser.add_argument("--state", metavar="FILE", help="where the transaction numbers of pull, push, read and write go on (else they come from the clock)")
    parser.add_argument("--every", type=float, metavar="S", help="read again each time so many seconds have passed")
    parser.add_argument("command", choices=("serve", "issue", "pull", "push", "read", "write"))
    parser.add_argument("words", nargs="+")
    found = parser.parse_args(given)
    if found.command in ("serve", "issue") and len(found.words) != 1:
        parser.error(f"{found.command} takes one plan")
    if found.command in ("pull", "push") and len(found.words) != 3:
        parser.error(f"{found.command} takes a plan, the number of a file, and {'how many words' if found.command == 'pull' else 'the words'}")
    if found.tick < 1:
        parser.error("a tick has at least one millisecond")
    return found


def tell(text):
    print(f"df1-port: {text}", file=sys.stderr, flush=True)


def values_of(texts):
    """Addresses with the texts of their values."""
    found = []
    for text in texts:
        address, equals, given = text.partition("=")
        if not equals:
            raise words.Wrong(f"{text}: write takes ADDRESS=VALUE")
        found.append((words.Address(address), given.split(",")))
    return found


def orders_of(command, text):
    """How many commands a transfer has, one for each 100 words; what no transfer has is for `df1` to refuse."""
    words_of = int(text) if command == "pull" and text.isascii() and text.isdecimal() else len(text) // 4
    return max(1, -(-min(words_of, 3000) // 100))


def done(line, given):
    """Does the command, and answers the status."""
    if given.command == "serve":
        return talk.serve(line, given.words[0])
    if given.command == "issue":
        return talk.issue(line, given.words[0], tell)
    numbers = Numbers(given.state)
    if given.command in ("pull", "push"):
        return talk.transfer(line, numbers, given.command, given.words[0], given.words[1:], orders_of(given.command, given.words[2]))
    plan = plans.read(given.plan) if given.plan else {"node": 0, "peer": 1}
    if given.command == "write":
        return talk.write(line, plan, numbers, values_of(given.words))
    addresses = list(map(words.Address, given.words))
    if given.every is not None:
        talk.read_again(line, plan, numbers, addresses, given.every)
    return talk.read(line, plan, numbers, addresses)


def main():
    given = arguments(sys.argv[2:])
    program = sys.argv[1]
    if given.command == "write":
        values_of(given.words)
    trace = Trace(given.record)
    port = None
    try:
        port = device.Device(given.device, given.baud, given.rs485)
        return done(talk.Line(program, port, given.tick / 1000, trace), given)
    except device.Refused as why:
        tell(str(why))
        return GONE
    except device.Gone:
        tell(f"{given.device} went away")
        return GONE
    except KeyboardInterrupt:
        tell("interrupted")
        return INTERRUPTED
    finally:
        trace.close()
        if port:
            port.close()


if __name__ == "__main__":
    try:
        sys.exit(main())
    except (words.Wrong, OSError, ValueError) as why:
        tell(str(why))
        sys.exit(2)
