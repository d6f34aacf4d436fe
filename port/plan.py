"""A plan, as `df1` reads it, with other commands and another first transaction number."""
import tomllib

FIRST = {"check": "bcc", "node": 1, "peer": 0, "tns": 1, "ack_ticks": 10, "max_naks": 3, "max_enqs": 3, "reply_ticks": 100}


def value(plan, key):
    return plan.get(key, FIRST[key])


def read(name):
    with open(name, "rb") as file:
        return tomllib.load(file)


def _text(item):
    if isinstance(item, bool):
        return "true" if item else "false"
    if isinstance(item, str):
        return '"' + item.replace("\\", "\\\\").replace('"', '\\"') + '"'
    if isinstance(item, list):
        return "[" + ", ".join(map(_text, item)) + "]"
    if isinstance(item, dict):
        return "{" + ", ".join(f"{key} = {_text(of)}" for key, of in item.items()) + "}"
    return str(item)


def issuing(plan, payloads, tns):
    """The text of the plan, but for its commands: these, of which the first has this number."""
    changed = {**plan, "issue": [payload.hex() for payload in payloads], "tns": tns}
    return "".join(f"{key} = {_text(item)}\n" for key, item in changed.items())


def most_ticks(plan, commands, executed):
    """After how many ticks, each with all bytes given, every command has an outcome: for each command the waits for a response that it may cost, or the wait
    for its reply if that is longer, and for each reply the waits for a response. So it is proved (docs/CLAIM.md, theorem 8)."""
    ack, naks, enqs = value(plan, "ack_ticks"), value(plan, "max_naks"), value(plan, "max_enqs")
    for_responses = ack * (enqs + 1) + (ack - 1) * naks
    return commands * max(for_responses, value(plan, "reply_ticks")) + executed * for_responses
