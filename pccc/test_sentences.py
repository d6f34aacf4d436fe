"""What messages are called, and what their fields say. The exchanges are those of docs/COMMANDS.md."""
import re
import unittest
from pathlib import Path

from pccc.fields import read_message
from pccc.sentences import sentence, sentence_of

COMMANDS = Path(__file__).resolve().parent.parent / "docs" / "COMMANDS.md"
EXCHANGE = re.compile(r"\| `((?:[0-9A-F]{2} ?)+)` \| `((?:[0-9A-F]{2} ?)+)` \| .*")
LETTERS = {2: "S", 4: "T", 7: "N", 8: "F"}

# The command and the reply of each exchange, in the order of the page.
NAMES = """\
echo E2 | E2
status | 01 02
unknown command 06 04 | refused: not understood
unprotected read byte 0, 2 bytes | 34 12
unprotected write byte 2 = CD AB | done
unprotected write byte 1 = 01 00 | refused: no such address
unprotected read byte 32, 2 bytes | refused: no such address
read N7:1 | N7:1 = 5678
read N7:0, 2 words | N7:0 = 1234 5678
write N7:2 = ABCD | done
write N7:2 = ABCD | done
write N7:2 = ABCD | done
masked write N7:0, mask 00FF = ABCD | done
read N7:0, 3 bytes | refused: value not allowed
read N7:0, 123 words | refused: too long
read N9:0 | refused: no such element
read F7:0, 2 bytes | refused: another type
write B7:2 = ABCD | refused: another type
write S2:0 = 0001 | refused: access denied
read N7:0.1 | refused: no such element
read N7:16 | refused: past the end
range write N7:1 = ABCD | done
range read N7:0, 2 words | N7:0 = 1234 5678
range write N7:2 = ABCD | refused: past the end
range read, malformed | refused: too few levels
range read, malformed | refused: too many levels
read-modify-write N7:0 | done
read-modify-write N7:0, N7:16 | refused: past the end
typed write N7:0 = ABCD 0001 | done
typed write N7:0 = ABCD | done
typed read N7:0, 2 elements | N7:0 = 1234 5678
typed read F8:0 | F8:0 = 0
typed read T4:0.CTL | refused: another type
""".splitlines()

# Others, by their bodies.
BODIES = [
    ("01000F000100AA04088A00000000C03F", "write F8:0 = 1.5"),
    ("01000F000100A208088A0000", "read F8:0, 2 floats"),
    ("01000F000100A206048600" + "00", "read T4:0.CTL, 3 words"),
    ("01000F000100AA0204860102" + "2C01", "write T4:1.ACC = 012C"),
    ("01000F000100AA08078900000100020003000400", "write N7:0 = 4 words"),
    ("01000F000100A202FF2C0189FFFF0000", "read N300:255"),
    ("01000F00010026" + "060700FFFF0000" + "060701FFFF0000" + "060702FFFF0000" + "060703FFFF0000", "read-modify-write N7:0, N7:1, N7:2, .."),
    ("01000F000100A2", "read, malformed"),
    ("01000F000100A20207890000FF", "read, malformed"),
    ("01000F000100", "unknown command 0F"),
    ("010005000100AABB", "unknown command 05 AA"),
    ("00014F100100", "reply, refused: not understood"),
    ("00014FF001000B", "reply, refused: access denied"),
    ("00014FF00100EE", "reply, refused: STS F0/EE"),
    ("00014F010100", "reply, refused: STS 01"),
    ("0001460001000102030405", "reply, 5 bytes"),
    ("0102", "short message"),
]


class Sentences(unittest.TestCase):
    def test_each_exchange_of_the_commands_has_its_name(self):
        found = []
        for command, reply in EXCHANGE.findall(COMMANDS.read_text()):
            asked = read_message(bytes.fromhex(command), LETTERS)
            answer = sentence(read_message(bytes.fromhex(reply)), asked).replace("reply, ", "", 1)
            found.append(f"{sentence(asked)} | {answer}")
        self.assertEqual(found, NAMES)

    def test_other_messages_have_theirs(self):
        for body, name in BODIES:
            with self.subTest(body):
                self.assertEqual(sentence_of(bytes.fromhex(body), LETTERS), name)

    def test_a_file_that_is_not_known_has_no_letter(self):
        body = bytes.fromhex("01000F00010026060703FFFF0000")
        self.assertEqual(sentence_of(body), "read-modify-write N7:3")
        self.assertEqual(sentence_of(body, {}), "read-modify-write 7:3")


class Fields(unittest.TestCase):
    def test_all_bytes_of_a_message_are_in_a_field_once(self):
        bodies = [body for pair in EXCHANGE.findall(COMMANDS.read_text()) for body in pair] + [body for body, _ in BODIES]
        for body in map(bytes.fromhex, bodies):
            for size in range(len(body) + 1):
                fields = read_message(body[:size], LETTERS).fields
                ends = [0] + [field.after for field in fields]
                self.assertEqual(([field.first for field in fields], ends[-1]), (ends[:-1], size), body.hex())

    def test_the_fields_of_a_command(self):
        fields = read_message(bytes.fromhex("01000F00010067" + "00000200" + "060700" + "99090542" + "CDAB0100"), LETTERS).fields[5:]
        self.assertEqual([(field.name, field.text) for field in fields], [
            ("FNC", "typed write"), ("OFFSET", "the part begins after 0"), ("TOTAL", "the range has 2"), ("address", "N7:0"),
            ("parameter", "an array of 5 bytes, of kind 4, size 2"), ("data", "ABCD 0001"),
        ])


if __name__ == "__main__":
    unittest.main()
