"""The wheel, the version, and the messages where something is missing."""
import base64
import hashlib
import os
import re
import shutil
import subprocess
import sys
import tempfile
import unittest
import zipfile

import pozsmeteg as p
from pozsmeteg.library import SIGNATURES

from .made import ROOT

HERE = os.path.join(ROOT, "bindings/python")
USE = "import pozsmeteg; print(pozsmeteg.__version__, pozsmeteg.root(4.0))"


def ran(words, **variables):
    """Status, output and errors of a command; a variable that is None is taken out."""
    environment = {**os.environ, **{k: v for k, v in variables.items() if v is not None}}
    for name in (k for k, v in variables.items() if v is None):
        environment.pop(name, None)
    folder = environment.pop("FOLDER", None)
    done = subprocess.run(words, cwd=folder, env=environment, capture_output=True, text=True, check=False)
    return done.returncode, done.stdout, done.stderr


def signature(answer, arguments):
    """A declaration of the header in the letters of the package: a pointer and the length behind it are a list."""
    letters = {"double": "d", "uint32_t": "u", "size_t": "n", "uint8_t": "b"}
    words = ["l" if "*" in argument else letters[argument.split()[0]] for argument in arguments.split(",")]
    return "".join(words).replace("ln", "l") + ":" + letters[answer]


class InFolder(unittest.TestCase):
    def setUp(self):
        self.folder = tempfile.mkdtemp()
        self.addCleanup(shutil.rmtree, self.folder)

    def path(self, name):
        return os.path.join(self.folder, name)


class Installed(InFolder):
    def test_in_a_fresh_environment(self):
        self.assertEqual(ran([sys.executable, "-m", "venv", self.path("venv")])[0], 0)
        python = self.path("venv/bin/python")
        status, _, errors = ran([python, "-m", "pip", "install", "--no-index", "--disable-pip-version-check", HERE])
        self.assertEqual(status, 0, errors)
        status, out, errors = ran([python, "-c", USE + "; print(pozsmeteg.__file__)"], FOLDER=self.folder, POZSMETEG_LIB=None, PYTHONPATH=None)
        self.assertEqual((status, errors), (0, ""))
        said, place = out.splitlines()
        self.assertEqual(said, f"{p.__version__} 2.0")
        self.assertTrue(os.path.realpath(place).startswith(os.path.realpath(self.path("venv"))))
        with open(self.path("venv/bin/desk"), encoding="utf-8") as file:
            self.assertIn("from pozsmeteg.desk.main import main", file.read())

    def test_without_a_library(self):
        """In a checkout without the static library the installation says what makes it."""
        shutil.copytree(HERE, self.path("bindings/python"), ignore=shutil.ignore_patterns("tests", "__pycache__"))
        status, out, errors = ran([sys.executable, "-c", "import backend; backend.build_wheel('.')"], FOLDER=self.path("bindings/python"), POZSMETEG_LIB=None)
        self.assertEqual((status, out, errors.count("\n")), (1, "", 1))
        self.assertRegex(errors, "^pozsmeteg: there is no static library .*/target/staticlib/libexports.a: `tools/staticlib` makes")

    def test_wheel(self):
        sys.path.insert(0, HERE)
        import backend
        name = backend.build_wheel(self.folder)
        self.assertEqual(name, f"pozsmeteg-{p.__version__}-py3-none-linux_x86_64.whl")
        with zipfile.ZipFile(self.path(name)) as wheel:
            files = {entry: wheel.read(entry) for entry in wheel.namelist()}
        info = f"pozsmeteg-{p.__version__}.dist-info/"
        recorded = dict(line.split(",", 1) for line in files[info + "RECORD"].decode().splitlines())
        for entry, data in files.items():
            digest = base64.urlsafe_b64encode(hashlib.sha256(data).digest()).rstrip(b"=").decode()
            self.assertEqual(recorded.pop(entry), "," if entry.endswith("RECORD") else f"sha256={digest},{len(data)}")
        self.assertEqual(recorded, {})
        self.assertIn(f"\nVersion: {p.__version__}\n", files[info + "METADATA"].decode())
        self.assertEqual(files[info + "entry_points.txt"], b"[console_scripts]\ndesk = pozsmeteg.desk.main:main\n")
        self.assertTrue(files["pozsmeteg/libpozsmeteg.so"].startswith(b"\x7fELF"))
        with self.assertRaises(backend.UnsupportedOperation):
            backend.build_sdist(self.folder)

    def test_version_is_one(self):
        with open(os.path.join(ROOT, "bindings/rust/Cargo.toml"), encoding="utf-8") as file:
            self.assertEqual(re.search(r'^version = "(.*)"$', file.read(), re.M)[1], p.__version__)
        with open(os.path.join(ROOT, "bindings/c/pozsmeteg_submission.h"), encoding="utf-8") as file:
            self.assertEqual(re.search(r'^#define POZSMETEG_VERSION "(.*)"$', file.read(), re.M)[1], p.__version__)


    def test_calls_are_those_of_the_header(self):
        """Each call of pozsmeteg.h is there, with its arguments and its answer."""
        with open(os.path.join(ROOT, "bindings/c/pozsmeteg.h"), encoding="utf-8") as file:
            text = re.sub(r"/\*.*?\*/", "", file.read(), flags=re.S)
        found = {name: signature(answer, arguments) for answer, name, arguments in re.findall(r"(\w+) pozsmeteg_(\w+)\(([^;]*)\);", text)}
        self.assertEqual(found, SIGNATURES)

    def test_words_are_those_of_the_rust_crate(self):
        with open(os.path.join(ROOT, "bindings/rust/src/lib.rs"), encoding="utf-8") as file:
            told = re.findall(r'Refusal::\w+ => "(.*)",', file.read())
        self.assertEqual(list(p.WORDS.values()), told)


class Found(InFolder):
    """Where the library is looked for; USE is run with a copy of the package that has none beside it."""

    def setUp(self):
        super().setUp()
        shutil.copytree(os.path.join(HERE, "pozsmeteg"), self.path("a/b/c/pozsmeteg"), ignore=shutil.ignore_patterns("*.so", "__pycache__"))
        self.library = os.path.join(ROOT, "target/python/libpozsmeteg.so")

    def used(self, **variables):
        words = [sys.executable, "-c", USE]
        status, out, errors = ran(words, **{"FOLDER": self.folder, "PYTHONPATH": self.path("a/b/c"), "POZSMETEG_LIB": None, **variables})
        return (out.strip() if status == 0 else ""), errors.strip().splitlines()[-1] if errors else ""

    def test_found(self):
        good = (f"{p.__version__} 2.0", "")
        self.assertEqual(self.used(POZSMETEG_LIB=self.library), good)
        self.assertEqual(self.used(POZSMETEG_LIB=os.path.dirname(self.library)), good)
        os.makedirs(self.path("target/python"))
        shutil.copy(self.library, self.path("target/python/libpozsmeteg.so"))
        self.assertEqual(self.used()[0], "")
        os.makedirs(self.path("a/target/python"))
        shutil.copy(self.library, self.path("a/target/python/libpozsmeteg.so"))
        self.assertEqual(self.used(), good)
        shutil.rmtree(self.path("a/target"))
        shutil.copy(self.library, self.path("a/b/c/pozsmeteg/libpozsmeteg.so"))
        self.assertEqual(self.used(), good)

    def test_missing(self):
        out, said = self.used()
        self.assertEqual(out, "")
        self.assertRegex(said, "LibraryMissing: there is no libpozsmeteg.so at .*`tools/staticlib` and then `bindings/python/build` make it")
        out, said = self.used(POZSMETEG_LIB=self.folder)
        self.assertEqual(out, "")
        self.assertRegex(said, f"LibraryMissing: POZSMETEG_LIB is {self.folder}, but there is no {self.folder}/libpozsmeteg.so; .*unset POZSMETEG_LIB")

    def test_not_this_library(self):
        with open(self.path("libpozsmeteg.so"), "wb") as file:
            file.write(b"no library")
        self.assertRegex(self.used(POZSMETEG_LIB=self.folder)[1], "LibraryMissing: .*could not be loaded: .*build` makes it anew")
        self.assertEqual(ran(["cc", "-shared", "-x", "c", "/dev/null", "-o", self.path("libpozsmeteg.so")])[0], 0)
        self.assertRegex(self.used(POZSMETEG_LIB=self.folder)[1], "LibraryMissing: .*has no pozsmeteg_root: it is of another version")


MODE = """
#include <fenv.h>
#include <xmmintrin.h>
void flush(unsigned bits) { _mm_setcsr(_mm_getcsr() | bits); }
void rounding(int mode) { fesetround(mode); }
"""


class Mode(InFolder):
    """A floating-point mode that C does not start with is told, and no answer given."""

    def said(self, call):
        use = f"import ctypes, pozsmeteg; pozsmeteg.root(2.0); ctypes.CDLL({self.path('mode.so')!r}).{call}; print(pozsmeteg.root(2.0))"
        return ran([sys.executable, "-c", use], PYTHONPATH=HERE)

    def test_told(self):
        with open(self.path("mode.c"), "w", encoding="ascii") as file:
            file.write(MODE)
        self.assertEqual(ran(["cc", "-shared", "-fPIC", self.path("mode.c"), "-o", self.path("mode.so"), "-lm"])[0], 0)
        self.assertEqual(self.said("rounding(0)")[:2], (0, "1.4142135623730951\n"))
        for call in ("rounding(0x400)", "rounding(0x800)", "rounding(0xc00)", "flush(0x8000)", "flush(0x40)"):
            status, out, errors = self.said(call)
            self.assertEqual((status, out), (1, ""), call)
            self.assertIn("WrongMode: the floating-point mode was changed", errors)


class Build(InFolder):
    """`build` in a copy of the folder, so that the library of the checkout stays."""

    def setUp(self):
        super().setUp()
        os.makedirs(self.path("bindings/python"))
        self.build = shutil.copy(os.path.join(HERE, "build"), self.path("bindings/python/build"))

    def said(self, *words, **variables):
        status, out, errors = ran([sys.executable, self.build, *words], **{"POZSMETEG_LIB": None, **variables})
        self.assertEqual((status, out), (1, ""))
        self.assertFalse(os.path.exists(self.path("target/python/libpozsmeteg.so")))
        return errors

    def test_no_static_library(self):
        for words, variables in (((), {}), (("nowhere.a",), {}), ((), {"POZSMETEG_LIB": self.folder}), ((), {"PATH": self.folder})):
            errors = self.said(*words, **variables)
            self.assertRegex(errors, "^build: there is no static library .*`tools/staticlib` makes target/staticlib/libexports.a")
            self.assertEqual(("`rt` has to be on the PATH" in errors), shutil.which("rt", path=variables.get("PATH")) is None)
            self.assertEqual(errors.count("\n"), 1)

    def test_no_compiler(self):
        with open(self.path("x.a"), "wb"):
            pass
        self.assertRegex(self.said(self.path("x.a"), PATH=self.folder), "^build: there is no C compiler `cc` on the PATH")

    def test_not_an_archive(self):
        with open(self.path("x.a"), "wb") as file:
            file.write(b"no archive")
        self.assertRegex(self.said(self.path("x.a")), "^build: cc could not link .*x.a")
        self.assertEqual(os.listdir(self.path("target/python")), [])


if __name__ == "__main__":
    unittest.main()
