"""Runs two ends against each other over a line that loses bytes, and counts how often each command was executed: python3 bench.py
FOLDER, with the folder of the library. A command may be lost altogether: its frame isn't received as one, and the ENQ after it is
answered by the ACK before it. Then the command is unanswered, and the next one is sent."""
import random
import sys

import df1

COMMANDS = 200  # at most 254, since the element of a write is one byte
LOSS = 0.01  # the chance of each byte
FILE = 7


def made(library, address):
    link = df1.Duplex(crc=True, embed=False, ack_ticks=10, max_naks=200, max_enqs=200)
    node = df1.Node(address=address, tns=1, reply_ticks=200, room=2)
    return df1.End(library, link, node, [df1.File(FILE, library.DF1_INTEGER, COMMANDS + 1)])


def write(number):
    """Returns the payload of command `number`, which writes its number to the element of that number."""
    return bytes([0x0F, 0xAA, 2, FILE, 0x89, number, 0, number, 0])


def carry(library, giver, hearer, chance, executed):
    """Carries what one end has to send to the other, except for lost bytes, and returns how many were lost. The commands that are
    executed there are added to `executed`."""
    lost = 0
    for byte in giver.given():
        if chance.random() < LOSS:
            lost += 1
        elif hearer.byte(byte).did == library.DF1_EXECUTED:
            executed.append(hearer.body()[10])
    return lost


def main():
    library = df1.Library(sys.argv[1])
    chance = random.Random(1770)
    near, far = made(library, 1), made(library, 2)
    for number in range(1, COMMANDS + 1):
        near.issue(2, write(number))
    executed, lost = [], 0
    while near.outcome(COMMANDS) in (library.DF1_WAITING, library.DF1_OUT):
        lost += carry(library, near, far, chance, executed)
        lost += carry(library, far, near, chance, executed)
        near.tick()
        far.tick()
    answered = [number for number in range(1, COMMANDS + 1) if near.outcome(number) == library.DF1_REPLIED]
    written = [number for number in range(COMMANDS + 1) if far.word(FILE, number) == number != 0]
    right = executed == written and set(answered) <= set(executed)
    near.free()
    far.free()
    print(f"{COMMANDS} commands, each answered one executed once and none twice: {'yes' if right else 'no'}")
    print(f"{lost} bytes lost, {len(executed)} executed, {len(answered)} answered", file=sys.stderr)
    return 0 if right and lost > 0 and answered else 1


sys.exit(main())
