"""What is done over a device: serving a plan, issuing its commands, and reading and writing by address."""
import os
import sys
import tempfile
import time

import frames
import plan as plans
import words
from end import End


class Line:
    """A device, the program, and how long a tick is."""

    def __init__(self, program, device, tick, trace):
        self.program, self.device, self.tick, self.trace = program, device, tick, trace

    def end(self, words_of, plan):
        return End(self.program, words_of, self.device, self.tick, self.trace, plans.value(plan, "check") == "crc")


def serve(line, name):
    """Serves the plan until the device goes away or the program ends, and answers its status."""
    end = line.end(["serve", name, "timed"], plans.read(name))
    try:
        end.run(lambda _: False)
    finally:
        status, told = end.close()
        sys.stderr.write(told)
    return status


class Outcomes:
    """Says when all commands of an end have an outcome: each reply was heard, and the line was quiet since; or so many ticks have passed that none can be open."""

    def __init__(self, plan, first, count, says=None):
        self.plan, self.count, self.says = plan, count, says
        self.wanted = {(first + place) % 65536 for place in range(count)}
        self.quiet_since, self.seen = 0, 0

    def __call__(self, end):
        replies = {frames.tns_of(body) for body in end.received if frames.is_reply(body)} & self.wanted
        if len(end.received) + len(end.sent) != self.seen:
            self.seen, self.quiet_since = len(end.received) + len(end.sent), end.ticks
            if self.says and replies:
                self.says(f"{len(replies)} of {self.count} answered")
        executed = sum(not frames.is_reply(body) for body in end.received)
        done = len(replies) == self.count and end.ticks - self.quiet_since > plans.value(self.plan, "ack_ticks")
        return done or end.ticks > plans.most_ticks(self.plan, self.count, executed)


def issue(line, name, says):
    """Issues the commands of the plan, tells their outcomes on standard error, and answers the program's status, or 1 where a command wasn't answered."""
    plan = plans.read(name)
    over = Outcomes(plan, plans.value(plan, "tns"), len(plan.get("issue", [])), says)
    end = line.end(["issue", name], plan)
    try:
        end.run(over)
    finally:
        status, told = end.close()
        sys.stderr.write(told)
    return status or int(any(" answered " not in f"{outcome} " for outcome in told.splitlines()))


def told_by(line, plan, numbers, payloads, count, words_for):
    """Runs `df1` with a plan that has these payloads and numbers that weren't used, so that `count` commands are issued. Answers its status and what it told."""
    first = numbers.take(count)
    with tempfile.TemporaryDirectory() as folder:
        name = os.path.join(folder, "plan.toml")
        with open(name, "w", encoding="utf-8") as file:
            file.write(plans.issuing(plan, payloads, first))
        end = line.end(words_for(name), plan)
        try:
            end.run(Outcomes(plan, first, count))
        finally:
            ended = end.close()
    return ended


def transfer(line, numbers, command, name, rest, count):
    """Moves words of a file by `df1 pull` or `df1 push`, tells what it came to on standard error, and answers the program's status, or 1 where not all were moved."""
    status, told = told_by(line, plans.read(name), numbers, [], count, lambda plan: [command, plan, *rest])
    sys.stderr.write(told)
    return status or int(not told.startswith(("pulled ", "pushed ")))


def asked(line, plan, numbers, payloads):
    """Issues commands, and answers of each the reply, or the word that tells how it ended: `undelivered`, `unanswered` or `unfinished`."""
    status, told = told_by(line, plan, numbers, payloads, len(payloads), lambda name: ["issue", name])
    if status != 0:
        raise words.Wrong(told.strip() or f"df1 ended with status {status}")
    ends = [text.split(" ")[1:] for text in told.splitlines()]
    return [bytes.fromhex(rest[0]) if how == "answered" else how for how, *rest in ends]


def fault(answers):
    """The first thing that went wrong among answers, in words, or None."""
    for answer in answers:
        told = f"{answer}: no reply came" if isinstance(answer, str) else words.fault_of(answer)
        if told:
            return told
    return None


def read(line, plan, numbers, addresses):
    """Reads and prints the values, a line for each address, and answers 0 where all were read."""
    failed = 0
    for address in addresses:
        answers = asked(line, plan, numbers, address.reads())
        wrong = fault(answers)
        if wrong:
            print(f"{address.text} {wrong}", flush=True)
            failed = 1
        else:
            print(address.text, *address.values(b"".join(answer[6:] for answer in answers)), flush=True)
    return failed


def read_again(line, plan, numbers, addresses, every):
    """Reads again each time so many seconds have passed, without end."""
    while True:
        begun = time.monotonic()
        read(line, plan, numbers, addresses)
        time.sleep(max(0, every - (time.monotonic() - begun)))


def write(line, plan, numbers, values):
    """Writes the values, and answers 0 where all were written."""
    failed = 0
    for address, texts in values:
        wrong = fault(asked(line, plan, numbers, address.writes(texts)))
        print(f"{address.text} {wrong or 'written'}", flush=True)
        failed |= wrong is not None
    return int(failed)
