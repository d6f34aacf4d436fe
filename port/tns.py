"""Where transaction numbers go on: a run begins behind the numbers of the one before, so that its first command isn't taken for a repeat of that one's last."""
import json
import os
import time


class Numbers:
    """The next number, kept in a file, or taken from the clock where there is none."""

    def __init__(self, name):
        self.name = name
        self.next = int(time.time() * 16) % 65536
        if name and os.path.exists(name):
            with open(name, encoding="ascii") as file:
                self.next = int(json.load(file)["tns"]) % 65536

    def take(self, count):
        """The first of so many numbers. They are kept as used before any goes out."""
        first, self.next = self.next, (self.next + count) % 65536
        if self.name:
            beside = f"{self.name}.new"
            with open(beside, "w", encoding="ascii") as file:
                json.dump({"tns": self.next}, file)
            os.replace(beside, self.name)
        return first
