"""Many days."""
import os
import shutil
import signal
import subprocess
import sys

from tests.common import DESK, SMALL, Case, digest_of, double, of_example, process, read, run, sections, submission, text_of


class Days(Case):
    def days(self, **texts):
        """A list of days with these submissions."""
        for name, text in texts.items():
            self.written(text, f"{name}.txt")
        lines = "".join(f"{self.path(name)}.txt {self.path(name)}.sheet\n" for name in texts)
        return self.written("# a list of days\n\n" + lines, "list")

    def test_done_failed_missing(self):
        listed = self.days(good=SMALL, bad=submission(sections(nodes=[double(1), double(0)])), torn=SMALL[:-5])
        with open(listed, "a", encoding="ascii") as file:
            file.write(f"{self.path('missing')}.txt {self.path('missing')}.sheet\n")
        answer = run("days", listed, "--jobs", "2")
        self.assertEqual((answer.status, answer.said), (3, ""))
        lines = sorted(answer.out.splitlines()[:-1])
        self.assertEqual(len(lines), 4)
        self.assertEqual(answer.out.splitlines()[-1], "1 of 4 days have their sheet, 3 failed")
        for line, pieces in zip(lines, [
            (f"{self.path('bad')}.sheet: failed with status 2: {self.path('bad')}.txt: refused 5: ", "row 2 of 'nodes', line 17"),
            (f"{self.path('good')}.sheet: done, kept 0 final 0",),
            (f"{self.path('missing')}.sheet: failed with status 3: {self.path('missing')}.txt: cannot be read: No such file",),
            (f"{self.path('torn')}.sheet: failed with status 2: {self.path('torn')}.txt: line ",),
        ]):
            for piece in pieces:
                self.assertIn(piece, line)
        self.assertEqual(self.files(), ["bad.txt", "good.sheet", "good.txt", "list", "torn.txt"])
        self.assertIn(digest_of(self.path("good.txt")), text_of(self.path("good.sheet")))

    def test_taken_up_again(self):
        listed = self.days(one=SMALL, two=SMALL[:-5])
        self.assertEqual(run("days", listed).status, 2)
        made = os.stat(self.path("one.sheet")).st_ino
        self.written(SMALL, "two.txt")
        answer = run("days", listed)
        self.assertEqual((answer.status, answer.out), (0, f"{self.path('one')}.sheet: there already\n{self.path('two')}.sheet: done, kept 0 final 0\n"
                                                       "2 of 2 days have their sheet, 0 failed\n"))
        self.assertEqual(os.stat(self.path("one.sheet")).st_ino, made)

    def test_a_sheet_that_is_not_of_its_submission(self):
        listed = self.days(one=SMALL)
        for old in ("kept 0 final 0\n", "torn", of_example("first.sheet")):
            if os.path.exists(old):
                shutil.copy(old, self.path("one.sheet"))
            else:
                self.written(old, "one.sheet")
            self.assertIn("one.sheet: done, kept 0 final 0", run("days", listed).out)

    def test_one_line(self):
        listed = self.days(one=SMALL, two=SMALL, three=SMALL)
        self.assertEqual(run("days", listed, "--line", "4").out, f"{self.path('two')}.sheet: done, kept 0 final 0\n1 of 1 days have their sheet, 0 failed\n")
        self.assertEqual([name for name in self.files() if name.endswith(".sheet")], ["two.sheet"])
        self.assertEqual(run("days", listed, "--line", "1"), (0, "0 of 0 days have their sheet, 0 failed\n", ""))

    def test_the_example(self):
        for name in ("first", "whole"):
            shutil.copy(of_example(f"{name}.txt"), self.path(f"{name}.txt"))
        listed = self.written("first.txt first.sheet\nwhole.txt whole.sheet\n", "list")
        answer = process("days", listed, "--jobs", "2", cwd=self.folder)
        self.assertEqual((answer.status, answer.said), (0, ""))
        self.assertEqual(sorted(answer.out.splitlines()), [
            "2 of 2 days have their sheet, 0 failed", "first.sheet: done, kept 5054 final 2624", "whole.sheet: done, kept 5561 final 5486"])
        for name in ("first.sheet", "whole.sheet"):
            self.assertEqual(read(self.path(name)), read(of_example(name)))

    def test_lists_that_are_none(self):
        for text, why in (("one.txt\n", "line 1: a submission and a sheet are needed, and there is 'one.txt'"), ("a b c\n", "there is 'a b c'"),
                          ("a x\nb x\n", "line 2: the sheet x stands already in line 1")):
            self.assert_told(run("days", self.written(text)), 2, why)
        for wrong in ("0", "-1", "two", "1.5"):
            self.assert_told(run("days", self.days(one=SMALL), "--jobs", wrong), 2, f"'{wrong}'")

    def test_an_end_from_outside(self):
        shutil.copy(of_example("whole.txt"), self.path("whole.txt"))
        listed = self.written("".join(f"{self.path('whole.txt')} {self.path(f'{k}.sheet')}\n" for k in range(20)), "list")
        running = subprocess.Popen([sys.executable, DESK, "days", listed, "--jobs", "2"], stdout=subprocess.PIPE, stderr=subprocess.PIPE)
        self.assertIn(b".sheet: done, kept 5561 final 5486", running.stdout.readline())
        running.send_signal(signal.SIGTERM)
        running.communicate(timeout=60)
        self.assertEqual(running.returncode, 128 + signal.SIGTERM)
        self.assertLess(len([name for name in self.files() if name.endswith(".sheet")]), 20)
        self.assertEqual([name for name in self.files() if name.endswith(".part")], [])
