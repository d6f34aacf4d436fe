"""Runs `df1-ladder` with the program of this repository."""
import os
import sys

from ladder.command import main

TOP = os.path.dirname(os.path.dirname(os.path.abspath(__file__)))

if __name__ == "__main__":
    sys.exit(main(sys.argv[1:], [os.path.join(TOP, "df1")]))
