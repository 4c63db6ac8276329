"""The way from a folder of tables to the record, with the synthetic day of examples/day at degree 2."""
import os
import subprocess
import sys

from tests.common import ROOT, Case, read, run, text_of


class Day(Case):
    def made(self, name):
        done = subprocess.run([sys.executable, os.path.join(ROOT, "examples/day"), self.path(name), "2"], capture_output=True, check=False)
        self.assertEqual((done.returncode, done.stdout, done.stderr), (0, b"", b""))

    def test_from_tables_to_record(self):
        self.made("day")
        day, sheet, record = self.path("day.txt"), self.path("day.sheet"), self.path("record.txt")
        self.assert_fine(run("submission", self.path("day"), "-o", day))
        self.assert_fine(run("sheet", day, "-o", sheet))
        self.assertEqual(text_of(sheet).splitlines()[2], "kept 42111 final 38490")
        self.assertEqual(run("record", "append", record, sheet), (0, "38490 new entries, 0 there already, 38490 in all\n", ""))
        self.assertEqual(run("record", "check", record, sheet).status, 0)
        self.assert_fine(run("show", day, self.path("back")))
        for name in os.listdir(self.path("day")):
            self.assertEqual(read(self.path(f"back/{name}")), read(self.path(f"day/{name}")), name)

    def test_wrong_words(self):
        for words in ([], [self.path("x"), "two"], [self.path("x"), "2", "3"], ["--help"]):
            done = subprocess.run([sys.executable, os.path.join(ROOT, "examples/day"), *words], capture_output=True, text=True, check=False)
            self.assertEqual((done.returncode, done.stdout), (2, ""))
            self.assertIn("examples/day FOLDER [DEGREE]", done.stderr)
        self.assertEqual(self.files(), [])
