"""Prints the two checks of the manual's example message, and its frame with each: python3 checks.py [FOLDER], with the folder
of the library."""
import sys

from df1 import Library

library = Library(*sys.argv[1:2])
message = bytes.fromhex("08090600020403")
crc = library.df1_crc(message + b"\x03", len(message) + 1)
print(f"BCC {library.df1_bcc(message, len(message)):02X}, CRC {crc % 256:02X} {crc // 256:02X}")
for has_crc in (False, True):
    print(library.bytes("df1_spell", has_crc, message, len(message)).hex(" ").upper())
