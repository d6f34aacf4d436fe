"""How the command ends: its statuses and notes, and what it refuses to draw."""
import contextlib
import io
import os
import subprocess
import sys
import tempfile
import unittest
from pathlib import Path

from ladder.command import Failed, draw, main
from seen import TOP

SCRIPT = b"ai 0603\nak 2\nad 2\nax 2\nend\n"

# A program that tells these lines of the report at these lines of the script, as soon as it has read them, and this at the end.
TELLER = """\
import os
TOLD, LAST, STATUS = {told!r}, {last!r}, {status!r}
text = ""
while piece := os.read(0, 4096).decode():
    *lines, text = (text + piece).split("\\n")
    for line in lines:
        told = LAST if line.strip() == "end" else TOLD.get(line.strip(), "")
        os.write(1, told.encode())
        if line.strip() == "end":
            os._exit(STATUS)
"""

MISFITS = [
    ("bytes that are no items", {"ak 2": "a sent 5555\n"}, "line 2: `ak 2` doesn't fit the report's line `a sent 5555`; these bytes are"),
    ("more bytes than were taken", {"ak 2": "a sent 100610\n"}, "line 2: `ak 2` doesn't fit the report's line `a sent 100610`"),
    ("bytes of the other end", {"ak 2": "b sent 1006\n"}, "line 2: `ak 2` doesn't fit the report's line `b sent 1006`"),
    ("bytes given twice", {"ak 2": "a sent 10\na sent 06\n"}, "line 2: `ak 2` doesn't fit the report's line `a sent 06`"),
    ("bytes given at a delivery", {"ad 2": "b sent 1006\n"}, "line 3: `ad 2` doesn't fit the report's line `b sent 1006`"),
    ("a deed of the end that gave", {"ad 2": "a repeat\n"}, "line 3: `ad 2` doesn't fit the report's line `a repeat`"),
    ("a deed at a loss", {"ax 2": "b damaged\n"}, "line 4: `ax 2` doesn't fit the report's line `b damaged`"),
    ("a deed at an issue", {"ai 0603": "a exec 00\n"}, "line 1: `ai 0603` doesn't fit the report's line `a exec 00`"),
    ("a line that is none", {"ad 2": "b hello\n"}, "line 3: `b hello` is no line of a report"),
]


class Statuses(unittest.TestCase):
    def setUp(self):
        folder = tempfile.TemporaryDirectory()
        self.addCleanup(folder.cleanup)
        self.folder = Path(folder.name)

    def teller(self, told, last="deceived 0\n", status=0):
        """The command line of a program that tells these lines."""
        program = self.folder / "teller.py"
        program.write_text(TELLER.format(told=told, last=last, status=status))
        return [sys.executable, str(program)]

    def ladder(self, *words):
        """Runs ./df1-ladder in a folder of its own; answers its status, standard output and standard error."""
        run = subprocess.run([TOP / "df1-ladder", *words], cwd=self.folder, capture_output=True, text=True, check=False)
        return run.returncode, run.stdout, run.stderr

    def test_where_script_and_report_do_not_fit_it_says_so(self):
        for what, told, note in MISFITS:
            with self.subTest(what), self.assertRaises(Failed) as failed:
                draw(SCRIPT, "a script", self.teller(told))
            self.assertEqual(failed.exception.status, 1)
            self.assertTrue(failed.exception.note.startswith(note), failed.exception.note)

    def test_a_report_without_its_last_line_is_none(self):
        with self.assertRaises(Failed) as failed:
            draw(SCRIPT, "a script", self.teller({}, last=""))
        self.assertEqual((failed.exception.status, failed.exception.note), (1, "the report doesn't end with `deceived N`"))

    def test_a_report_that_is_not_told_event_by_event_does_not_fit(self):
        with self.assertRaises(Failed) as failed:
            draw(SCRIPT, "a script", self.teller({}, last="a sent 1006\ndeceived 0\n"))
        self.assertEqual(failed.exception.status, 1)

    def test_the_status_of_the_program_is_passed_on(self):
        picture = self.folder / "picture.svg"
        script = self.folder / "script"
        script.write_bytes(SCRIPT)
        self.assertEqual(main([str(script), "-o", str(picture)], self.teller({}, status=7)), 7)
        self.assertFalse(picture.exists())

    def test_a_program_that_is_not_there(self):
        with self.assertRaises(Failed) as failed:
            draw(SCRIPT, "a script", ["/nowhere/df1"])
        self.assertEqual((failed.exception.status, failed.exception.note), (1, "/nowhere/df1 can't be run: No such file or directory"))

    def test_a_refused_script_has_its_note_and_no_picture(self):
        (self.folder / "script").write_text("ai 0603\nai zz\nend\n")
        self.assertEqual(self.ladder("script", "-o", "picture.svg"), (3, "", "df1: line 2: form\n"))
        self.assertEqual(os.listdir(self.folder), ["script"])

    def test_a_picture_from_any_folder_to_a_file_or_to_standard_output(self):
        script = (TOP / "examples" / "one-write.df1").read_text()
        (self.folder / "one-write.df1").write_text(script)
        stored = (TOP / "docs" / "pictures" / "one-write.svg").read_text()
        self.assertEqual(self.ladder("one-write.df1"), (0, stored, ""))
        self.assertEqual(self.ladder("one-write.df1", "-o", "picture.svg"), (0, "", ""))
        self.assertEqual((self.folder / "picture.svg").read_text(), stored)

    def test_what_can_not_be_read_or_written(self):
        (self.folder / "script").write_text("end\n")
        nothing = "No such file or directory\n"
        self.assertEqual(self.ladder("none"), (4, "", f"df1-ladder: none can't be read: {nothing}"))
        self.assertEqual(self.ladder("."), (4, "", "df1-ladder: . can't be read: Is a directory\n"))
        self.assertEqual(self.ladder("script", "-o", "none/x"), (5, "", f"df1-ladder: none/x can't be written: {nothing}"))

    def test_words_of_no_form_are_a_usage_error(self):
        for text in ("", "one two", "one --from x", "one --from 0", "one --from 3 --to 2", "one --fr 1", "one --as drill", "one --as"):
            words = text.split()
            with self.subTest(text), contextlib.redirect_stderr(io.StringIO()) as note, self.assertRaises(SystemExit) as exit_:
                main(words, [])
            self.assertEqual(exit_.exception.code, 2)
            self.assertIn("usage: df1-ladder", note.getvalue())


if __name__ == "__main__":
    unittest.main()
