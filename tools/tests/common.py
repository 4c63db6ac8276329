"""What the tests share: the example, small submissions and sheets, and ways to run the command."""
import atexit
import contextlib
import functools
import hashlib
import io
import os
import shutil
import struct
import subprocess
import sys
import tempfile
import unittest
from typing import NamedTuple

from pozsmeteg.desk.main import main

ROOT = os.path.dirname(os.path.dirname(os.path.dirname(os.path.abspath(__file__))))
DESK = os.path.join(ROOT, "tools/desk")
SUBMISSION = os.path.join(ROOT, "crates/sheet_program/stdin")
WHOLE = os.path.join(ROOT, "crates/sheet_program/stdout")
FIRST = os.path.join(ROOT, "examples/first.sheet")
CUT = "695320200"
ZERO = "0" * 16
NAN, INFINITY = "7FF8000000000000", "7FF0000000000000"
NOBODY = 65534
LISTS = ("states_c", "acc_c", "states_d", "acc_d")


class Answer(NamedTuple):
    status: int
    out: str
    said: str


def run(*words):
    """The command within this process."""
    out, said = (io.TextIOWrapper(io.BytesIO(), encoding="utf-8", write_through=True) for _ in range(2))
    with contextlib.redirect_stdout(out), contextlib.redirect_stderr(said):
        try:
            status = main([str(word) for word in words])
        except SystemExit as end:
            status = end.code
    return Answer(status, out.buffer.getvalue().decode("utf-8"), said.buffer.getvalue().decode("utf-8"))


def process(*words, python=sys.executable, **settings):
    """The command as a process of its own."""
    settings = {"stdout": subprocess.PIPE, "stderr": subprocess.PIPE, "timeout": 120, "check": False, **settings}
    done = subprocess.run([python, DESK, *map(str, words)], **settings)
    return Answer(done.returncode, (done.stdout or b"").decode("utf-8"), (done.stderr or b"").decode("utf-8"))


def as_other_user():
    """Settings of a process that runs as somebody whom rights bind, which root is not; None where nobody else can run the command here."""
    if os.geteuid() != 0:
        return {}
    for python in (sys.executable, *filter(None, [shutil.which("python3", path="/usr/bin:/usr/local/bin:/bin")])):
        settings = {"python": python, "user": NOBODY, "group": NOBODY, "extra_groups": []}
        with contextlib.suppress(OSError):
            if process("--version", **settings).status == 0:
                return settings
    return None


def read(path):
    with open(path, "rb") as file:
        return file.read()


def text_of(path):
    return read(path).decode("ascii")


def word(number):
    """A whole number, as for keys."""
    return f"{number:016X}"


def double(number):
    return struct.pack(">d", number).hex().upper()


def number_of(word_):
    return struct.unpack(">d", bytes.fromhex(word_))[0]


# ---- submissions


def sections(**changes):
    """A small submission with some sections' lines put in the place of its own; its sheet is `kept 0 final 0`."""
    field = " ".join([ZERO] * 14)
    lines = {
        "degree": [word(2)],
        "static": [field],
        "fields": [f"{double(t)} {field}" for t in (0, 1)],
        "states_c": [" ".join([word(k)] + [ZERO] * 6) for k in (5, 6)],
        "acc_c": [f"{word(5)} {ZERO}"],
        "states_d": [],
        "acc_d": [],
        "nodes": [double(0), double(1)],
        "observations": [f"{double(t)} {ZERO} {word(1)}" for t in (0, 1, 2)],
    }
    lines.update(changes)
    return lines


def submission(lines):
    return "".join(f"{name} {len(rows)}\n" + "".join(row + "\n" for row in rows) for name, rows in lines.items())


SMALL = submission(sections())


def parts(text):
    """The lines of each section of a submission, each as many as its header says."""
    found, lines = {}, text.splitlines()
    while lines:
        name, count = lines[0].split()
        found[name] = lines[1 : int(count) + 1]
        lines = lines[int(count) + 1 :]
    return found


# ---- sheets


def headed(text, digest="0" * 64):
    """A sheet of sheet_program with the head lines of `desk sheet`."""
    return f"sheet 1 pozsmeteg 0.1.0\nsubmission sha256 {digest}\n{text}"


def sheet(rows, final=None):
    return f"kept {len(rows)} final {len(rows) if final is None else final}\n" + "".join(row + "\n" for row in rows)


def example_rows(first, end):
    return text_of(WHOLE).splitlines()[1 + first : 1 + end]


def digest_of(path):
    return hashlib.sha256(read(path)).hexdigest()


@functools.lru_cache(maxsize=None)
def example():
    """Both deliveries of the example and their sheets, made once: a folder with first.txt, first.sheet, whole.txt, whole.sheet."""
    folder = tempfile.mkdtemp()
    atexit.register(shutil.rmtree, folder, ignore_errors=True)
    shutil.copy(SUBMISSION, os.path.join(folder, "whole.txt"))
    statuses = [run("cut", SUBMISSION, CUT, "-o", os.path.join(folder, "first.txt")).status]
    statuses += [run("sheet", os.path.join(folder, f"{name}.txt"), "-o", os.path.join(folder, f"{name}.sheet")).status for name in ("first", "whole")]
    if statuses != [0, 0, 0]:
        raise AssertionError(f"the example could not be made: {statuses}")
    return folder


def of_example(name):
    return os.path.join(example(), name)


class Case(unittest.TestCase):
    """A test with a folder of its own."""

    maxDiff = 800

    def setUp(self):
        self.folder = tempfile.mkdtemp()
        self.addCleanup(shutil.rmtree, self.folder, ignore_errors=True)

    def path(self, name):
        return os.path.join(self.folder, name)

    def written(self, text, name=None):
        """A file with a text."""
        path = self.path(name or f"file{len(os.listdir(self.folder))}")
        with open(path, "wb") as file:
            file.write(text if isinstance(text, bytes) else text.encode("utf-8"))
        return path

    def files(self):
        return sorted(os.listdir(self.folder))

    def assert_fine(self, answer):
        self.assertEqual((answer.status, answer.said), (0, ""))

    def assert_told(self, answer, status, *pieces):
        """A status, nothing on standard output, and one sentence with these pieces."""
        self.assertEqual((answer.status, answer.out), (status, ""), answer.said)
        self.assertEqual(answer.said.count("\n"), 1, answer.said)
        self.assertTrue(answer.said.startswith("desk: "), answer.said)
        for piece in pieces:
            self.assertIn(str(piece), answer.said)
