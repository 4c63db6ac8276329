"""Outputs that cannot be written, inputs that cannot be read, and the command line itself."""
import os
import re
import resource
import shutil
import signal
import subprocess
import sys
import unittest.mock

from tests.common import DESK, FIRST, ROOT, SMALL, SUBMISSION, WHOLE, Case, as_other_user, example_rows, headed, of_example, process, read, run, sheet

COMMANDS = ("submission", "show", "sheet", "explain", "table", "picture", "final", "compare", "record", "days", "cut")


def limited(size):
    """Files of at most so many bytes, as on a disk that is full behind them."""

    def setup():
        resource.setrlimit(resource.RLIMIT_FSIZE, (size, size))
        signal.signal(signal.SIGXFSZ, signal.SIG_IGN)

    return setup


def other_user(case):
    settings = as_other_user()
    if settings is None:
        case.skipTest("running as root, and no other user can run the command here")
    return settings


class Full(Case):
    def test_standard_output(self):
        record, made = self.path("record"), self.written(headed(sheet(example_rows(0, 3))))
        run("record", "append", record, made)
        listed = self.written(f"{self.written(SMALL)} {self.path('s')}\n")
        for words in (
            ("table", WHOLE), ("final", WHOLE), ("compare", FIRST, WHOLE), ("cut", SUBMISSION, "695320200"), ("record", "check", record, made),
            ("record", "append", record, made), ("explain", self.written(SMALL)), ("days", listed), ("--help",), ("sheet", "--help"), ("--version",),
        ):
            with self.subTest(" ".join(words[:2])):
                with open("/dev/full", "wb") as full:
                    answer = process(*words, stdout=full)
                self.assert_told(answer, 3, "the output could not be written whole: No space left on device")

    def test_a_file_on_a_full_device(self):
        folder = self.path("tables")
        self.assertEqual(run("show", self.written(SMALL, "small"), folder).status, 0)
        for words in (("sheet", self.path("small")), ("submission", folder), ("picture", WHOLE), ("cut", self.path("small"), "5")):
            with self.subTest(words[0]):
                self.assert_told(process(*words, "-o", "/dev/full"), 3, "/dev/full: cannot be written: No space left on device")

    def test_too_little_room(self):
        shutil.copy(of_example("first.txt"), self.path("first.txt"))
        folder = self.path("tables")
        self.assertEqual(run("show", of_example("first.txt"), folder).status, 0)
        old = self.written("the old one\n", "out")
        names = self.files()
        for words in (("sheet", self.path("first.txt")), ("submission", folder), ("picture", FIRST), ("cut", self.path("first.txt"), "695320200")):
            for size in (0, 100, 20000):
                with self.subTest(f"{words[0]}, {size} bytes"):
                    self.assert_told(process(*words, "-o", old, preexec_fn=limited(size)), 3, old, "cannot be written: File too large")
                    self.assertEqual((read(old), self.files()), (b"the old one\n", names))

    def test_too_little_room_for_a_folder(self):
        path = self.written(SMALL, "small")
        self.assert_told(process("show", path, self.path("tables"), preexec_fn=limited(20)), 3, self.path("tables"), "cannot be written: File too large")
        self.assertEqual(self.files(), ["small"])


class Closed(Case):
    def test_output(self):
        for words in (("table", WHOLE), ("compare", FIRST, WHOLE), ("final", WHOLE)):
            answer = subprocess.run(["sh", "-c", 'exec "$@" >&-', "sh", sys.executable, DESK, *words], capture_output=True, text=True, check=False)
            self.assertEqual((answer.returncode, answer.stderr), (3, "desk: standard output is closed\n"))

    def test_both(self):
        answer = subprocess.run(["sh", "-c", 'exec "$@" >&- 2>&-', "sh", sys.executable, DESK, "final", WHOLE], check=False)
        self.assertEqual(answer.returncode, 3)

    def test_a_reader_that_went_away(self):
        for words in (("final", WHOLE), ("table", WHOLE), ("cut", SUBMISSION, "695320200")):
            reading, writing = os.pipe()
            os.close(reading)
            answer = process(*words, stdout=writing)
            os.close(writing)
            self.assertEqual((answer.status, answer.said), (3, ""))

    def test_head(self):
        command = f"{sys.executable} {DESK} final {WHOLE} | head -n 1"
        done = subprocess.run(["sh", "-c", command], capture_output=True, text=True, check=False)
        self.assertEqual((done.stderr, done.stdout.count("\n"), done.stdout.split()[0]), ("", 1, "695309892.0"))


class Unwritable(Case):
    def writers(self, target):
        """Each command that writes a file."""
        small = self.written(SMALL, "small")
        tables = self.path("tables")
        if not os.path.exists(tables):
            run("show", small, tables)
        made = self.written(headed(sheet(example_rows(0, 3))), "made")
        yield "sheet", small, "-o", target
        yield "submission", tables, "-o", target
        yield "picture", made, "-o", target
        yield "cut", small, "5", "-o", target
        yield "record", "append", target, made
        yield "show", small, target

    def test_no_folder(self):
        for words in self.writers(self.path("none/out")):
            with self.subTest(words[0]):
                self.assert_told(run(*words), 3, self.path("none/"), "No such file or directory")

    def test_a_file_for_a_folder(self):
        self.written("x", "file")
        for words in self.writers(self.path("file/out")):
            with self.subTest(words[0]):
                self.assert_told(run(*words), 3, self.path("file/"), "Not a directory")

    def test_a_folder_for_a_file(self):
        os.mkdir(self.path("out"))
        self.written("x", "out/kept")
        for words in self.writers(self.path("out")):
            if words[0] != "show":
                with self.subTest(words[0]):
                    self.assert_told(run(*words), 3, self.path("out"))
        self.assertEqual(os.listdir(self.path("out")), ["kept"])

    def test_a_read_only_folder(self):
        settings = other_user(self)
        os.chmod(self.folder, 0o755)
        os.mkdir(self.path("closed"))
        os.chmod(self.path("closed"), 0o555)
        for words in self.writers(self.path("closed/out")):
            with self.subTest(words[0]):
                answer = process(*words, **settings)
                self.assert_told(answer, 3, self.path("closed/"), "Permission denied")
        self.assertEqual(os.listdir(self.path("closed")), [])


class InPlace(Case):
    """The file that is read is not written over."""

    def test_each(self):
        small, made = self.written(SMALL), self.written(headed(sheet(example_rows(0, 3))))
        os.link(small, self.path("same"))
        for words in (("sheet", small, "-o", small), ("sheet", small, "-o", self.path("same")), ("cut", small, "5", "-o", small),
                      ("picture", made, "-o", made)):
            self.assert_told(run(*words), 2, "this file is read, so it cannot be the output, too")
        self.assertEqual(read(small).decode(), SMALL)


class Faults(Case):
    """What nobody thought of must not look like an entry that moved."""

    def test_an_unknown_fault(self):
        with unittest.mock.patch("pozsmeteg.desk.sheets.read", side_effect=ZeroDivisionError("x")):
            self.assert_told(run("compare", FIRST, WHOLE), 3, "a fault of desk itself, please report it: ZeroDivisionError: x")

    def test_memory(self):
        with unittest.mock.patch("pozsmeteg.desk.sheets.read", side_effect=MemoryError):
            self.assert_told(run("compare", FIRST, WHOLE), 3, "there is not enough memory")

    def test_another_floating_point_mode(self):
        with unittest.mock.patch("pozsmeteg.library.mode_is_right", return_value=False):
            self.assert_told(run("table", WHOLE, SUBMISSION), 3, "the engine cannot be called: the floating-point mode was changed")

    def test_a_terminal_without_letters(self):
        answer = process("table", WHOLE, "--every", "5000", env={**os.environ, "PYTHONIOENCODING": "ascii"})
        self.assertEqual((answer.status, answer.said), (0, ""))
        self.assertIn("nm/s?", answer.out)


class Unreadable(Case):
    def readers(self, path):
        yield "sheet", path, "-o", self.path("none")
        yield "show", path, self.path("none")
        yield "cut", path, "5"
        yield "explain", path
        yield "table", path
        yield "table", WHOLE, path
        yield "picture", path, "-o", self.path("none")
        yield "final", path
        yield "compare", path, WHOLE
        yield "compare", WHOLE, path
        yield "record", "append", self.path("none"), path
        yield "days", path

    def test_missing_and_folders(self):
        for path, why in ((self.path("missing"), "No such file or directory"), (self.folder, "Is a directory"), (WHOLE + "/x", "Not a directory")):
            for words in self.readers(path):
                with self.subTest(f"{words[:2]} {why}"):
                    self.assert_told(run(*words), 3, path, f"cannot be read: {why}")
        self.assertFalse(os.path.exists(self.path("none")))

    def test_no_rights(self):
        settings = other_user(self)
        os.chmod(self.folder, 0o755)
        path = self.written(SMALL)
        os.chmod(path, 0)
        for words in (("cut", path, "5"), ("final", path), ("days", path)):
            self.assert_told(process(*words, **settings), 3, path, "cannot be read: Permission denied")


class CommandLine(Case):
    def test_help(self):
        for name in COMMANDS:
            answer = run(name, "--help")
            self.assertEqual((answer.status, answer.said), (0, ""))
            self.assertIn(f"examples:\n  desk {name} ", answer.out)
        for name in ("append", "check"):
            self.assertIn(f"  desk record {name} ", run("record", name, "--help").out)
        whole = run("--help").out
        self.assertEqual([name for name in COMMANDS if not re.search(rf"^    {name}\b", whole, re.MULTILINE)], [])

    def test_version(self):
        self.assertEqual(run("--version"), (0, "desk, pozsmeteg 0.1.0\n", ""))

    def test_wrong_words(self):
        for words in ([], ["unknown"], ["table"], ["compare", WHOLE], ["sheet", SUBMISSION], ["record"], ["record", "forget", "a", "b"],
                      ["table", WHOLE, "--evry", "2"], ["final", WHOLE, WHOLE]):
            with self.subTest(words):
                self.assert_told(run(*words), 2, "--help")

    def test_without_the_library(self):
        shutil.copytree(os.path.join(ROOT, "bindings/python/pozsmeteg"), self.path("lib/pozsmeteg"))
        settings = {"env": {**os.environ, "PYTHONPATH": self.path("lib")}}

        def alone(*words):
            done = subprocess.run([sys.executable, "-m", "pozsmeteg.desk", *words], capture_output=True, text=True, check=False, **settings)
            return done.returncode, done.stdout.count("\n"), done.stderr

        status, lines, said = alone("sheet", SUBMISSION, "-o", self.path("none"))
        self.assertEqual((status, lines, said.count("\n")), (3, 0, 1), said)
        self.assertIn("libpozsmeteg.so", said)
        self.assertEqual(alone("final", WHOLE), (0, 5486, ""))
