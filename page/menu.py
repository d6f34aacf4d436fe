"""The examples of the menu, by what they show, as examples/README.md has them."""
from __future__ import annotations

import re
from pathlib import Path

EXAMPLES = Path(__file__).resolve().parent.parent / "examples"
HEADING = re.compile(r"## (.+)")
ROW = re.compile(r"\| \[([a-z0-9-]+)\.df1\]\([^)]*\) and its \[report\]\([^)]*\)\. (.+?) \| <a .*")
LINK = re.compile(r"\[([^\]]*)\]\([^)]*\)")
FIRST = "lost-ack"

# Captures, with the side and the check of each.
CAPTURES = (("capture-full", "full"), ("capture-master", "master"), ("capture-slave", "slave"))


def examples():
    """The groups of scripts, each with its name and its scripts, and the captures."""
    groups = []
    for line in (EXAMPLES / "README.md").read_text().splitlines():
        heading, row = HEADING.fullmatch(line), ROW.fullmatch(line)
        if heading:
            groups.append({"name": heading[1], "scripts": []})
        elif row:
            text = (EXAMPLES / f"{row[1]}.df1").read_text()
            groups[-1]["scripts"].append({"name": row[1], "shows": LINK.sub(r"\1", row[2]), "text": text})
    captures = [{"name": name, "side": side, "check": "bcc", "text": (EXAMPLES / f"{name}.in").read_text()} for name, side in CAPTURES]
    captures.append({"name": "trace.log", "side": "full", "check": "bcc", "text": (EXAMPLES / "trace.log").read_text()})
    return {"groups": [group for group in groups if group["scripts"]], "captures": captures}


def first_script():
    """The script that stands on the page where none is named."""
    return (EXAMPLES / f"{FIRST}.df1").read_bytes()
