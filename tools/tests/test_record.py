"""The record of years."""
import fcntl
import functools
import os
import signal
import subprocess
import sys
import time

from tests.common import (
    DESK, ROOT, WHOLE, ZERO, Case, digest_of, double, example_rows, headed, of_example, process, read, run, sheet, text_of)

SENTENCE = "{} new entries, {} there already, {} in all\n"


def changed(row, column, last="1"):
    """An entry with another last digit in a column."""
    words = row.split(" ")
    words[column] = words[column][:-1] + (last if words[column][-1] != last else "2")
    return " ".join(words)


class Records(Case):
    def setUp(self):
        super().setUp()
        self.record = self.path("record.txt")

    def sheet_of(self, rows, final=None, digest="0" * 64):
        return self.written(headed(sheet(rows, final), digest))

    def append(self, path, *words):
        return run("record", "append", self.record, path, *words)

    def assert_appended(self, path, new, old, whole):
        self.assertEqual(self.append(path), (0, SENTENCE.format(new, old, whole), ""))

    def entries(self):
        """The words of each entry in the record."""
        return [" ".join(line.split()[len(line.split()) // 2 :]) for line in text_of(self.record).splitlines() if line[0].isdigit() or line[0] == "-"]


class Appending(Records):
    def test_both_deliveries(self):
        first, whole = of_example("first.sheet"), of_example("whole.sheet")
        self.assert_appended(first, 2624, 0, 2624)
        after_first = text_of(self.record)
        self.assert_appended(whole, 2862, 2624, 5486)
        self.assertEqual(self.entries(), example_rows(0, 5486))
        self.assertTrue(text_of(self.record).startswith(after_first[: after_first.rindex("end ")]))
        before = read(self.record), os.stat(self.record).st_ino
        self.assert_appended(whole, 0, 5486, 5486)
        self.assert_appended(first, 0, 2624, 5486)
        self.assertEqual((read(self.record), os.stat(self.record).st_ino), before)
        for path, there, new in ((first, 2624, 0), (whole, 5486, 0)):
            answer = run("record", "check", self.record, path)
            self.assertEqual(answer, (0, f"{there} final entries are in the record, every bit the same; {new} are new\n", ""))

    def test_what_is_written(self):
        path = self.sheet_of(example_rows(100, 102), digest="ab" * 32)
        self.assert_appended(path, 2, 0, 2)
        lines = text_of(self.record).splitlines()
        self.assertEqual(lines[0], "record 1 pozsmeteg 0.1.0")
        self.assertTrue(lines[1].startswith(f"sheet {digest_of(path)} submission {'ab' * 32} from {example_rows(100, 101)[0][:16]} to "), lines[1])
        for line in lines[2:4]:
            cells = line.split()
            self.assertEqual([double(float(cell)) for cell in cells[:4]], cells[4:])
        self.assertTrue(lines[4].startswith("end 2 sha256 "))

    def test_check_counts_new_ones(self):
        self.append(self.sheet_of(example_rows(0, 10)))
        answer = run("record", "check", self.record, self.sheet_of(example_rows(0, 15)))
        self.assertEqual(answer, (0, "10 final entries are in the record, every bit the same; 5 are new\n", ""))

    def test_only_final_ones(self):
        self.assert_appended(self.sheet_of(example_rows(0, 10), 4), 4, 0, 4)
        self.assertEqual(self.entries(), example_rows(0, 4))
        moved = [*example_rows(0, 4), changed(example_rows(4, 5)[0], 1), *example_rows(5, 10)]
        self.assert_appended(self.sheet_of(moved), 6, 4, 10)

    def test_no_final_ones(self):
        self.assert_appended(self.sheet_of(example_rows(0, 10), 0), 0, 0, 0)
        self.assertFalse(os.path.exists(self.record))

    def test_a_day_in_between(self):
        """Days may come in any order, as where a failed one is taken up again."""
        self.assert_appended(self.sheet_of(example_rows(0, 5)), 5, 0, 5)
        self.assert_appended(self.sheet_of(example_rows(10, 15)), 5, 0, 10)
        self.assert_appended(self.sheet_of(example_rows(5, 10)), 5, 0, 15)
        self.assert_appended(self.sheet_of(example_rows(0, 20)), 5, 15, 20)

    def test_a_sheet_without_head(self):
        self.assert_told(self.append(WHOLE), 2, WHOLE, "without version and digest cannot go into a record")
        self.assert_told(run("record", "check", self.record, WHOLE), 2, "without version and digest")

    def test_five_words(self):
        rows = [f"{row} {double(220000 + k)}" for k, row in enumerate(example_rows(0, 6))]
        self.assert_appended(self.sheet_of(rows[:3]), 3, 0, 3)
        self.assert_appended(self.sheet_of(rows), 3, 3, 6)
        self.assertEqual(self.entries(), rows)
        other = self.sheet_of([*rows[:2], changed(rows[2], 4)])
        self.assert_told(self.append(other), 1, "entry 3", "distance is 220002.00000000003 ", "has 220002.0 ")

    def test_five_words_after_four(self):
        rows = example_rows(0, 6)
        self.assert_appended(self.sheet_of(rows[:3]), 3, 0, 3)
        self.assert_appended(self.sheet_of([f"{row} {double(1)}" for row in rows]), 3, 3, 6)

    def test_rights_and_links_stay(self):
        self.append(self.sheet_of(example_rows(0, 3)))
        os.chmod(self.record, 0o640)
        os.rename(self.record, self.path("real"))
        os.symlink("real", self.record)
        self.assert_appended(self.sheet_of(example_rows(0, 6)), 3, 3, 6)
        self.assertTrue(os.path.islink(self.record))
        self.assertEqual(os.stat(self.path("real")).st_mode & 0o777, 0o640)


class Differing(Records):
    def setUp(self):
        super().setUp()
        self.append(self.sheet_of(example_rows(0, 10)))
        self.before = read(self.record)

    def assert_refused(self, path, *pieces):
        for task in ("append", "check"):
            self.assert_told(run("record", task, self.record, path), 1, *pieces)
        self.assertEqual(read(self.record), self.before)

    def test_one_bit(self):
        for column, name in enumerate(("raw", "detrended"), 1):
            rows = example_rows(0, 10)
            old = rows[6].split()[column]
            rows[6] = changed(rows[6], column)
            path = self.sheet_of(rows)
            where = f"{path}: entry 7, 695309904.125 s (2022-01-13 01:38:24.125 GPS time): {name} is "
            self.assert_refused(path, where, f"({old})", f"({rows[6].split()[column]})")

    def test_the_sign_of_a_zero(self):
        rows = example_rows(0, 10)
        self.assertTrue(rows[2].endswith(ZERO))
        rows[2] = rows[2][:-16] + "8" + ZERO[1:]
        self.assert_refused(self.sheet_of(rows), f"passed is -0.0 (8{ZERO[1:]}), and {self.record} has 0.0 ({ZERO})")

    def test_more_than_one(self):
        self.assert_refused(self.sheet_of([changed(row, 1) for row in example_rows(0, 4)]), "entry 1,", "; 3 more differ")

    def test_an_entry_that_came_between(self):
        rows = example_rows(0, 12)
        between = " ".join([double(695309893.0), *rows[0].split()[1:]])
        self.assert_refused(self.sheet_of([rows[0], between, *rows[1:]]), "entry 2, 695309893.0 s", f"is not in {self.record}, which is whole at that time")

    def test_an_entry_that_is_gone(self):
        rows = example_rows(0, 12)
        self.assert_refused(self.sheet_of([*rows[:3], *rows[4:]]), f"{self.record}: the entry at 695309898.0 s", "is not among the final ones")

    def test_not_final_any_more(self):
        """An entry of the record that the sheet counts among those that may still move is not compared."""
        rows = [*example_rows(0, 5), changed(example_rows(5, 6)[0], 1)]
        answer = run("record", "check", self.record, self.sheet_of(rows, 5))
        self.assertEqual(answer.status, 0)


class Broken(Records):
    def setUp(self):
        super().setUp()
        self.append(self.sheet_of(example_rows(0, 3)))
        self.append(self.sheet_of(example_rows(0, 5)))
        self.whole, self.newer = read(self.record), self.sheet_of(example_rows(0, 8))

    def assert_refused(self, text, *pieces):
        with open(self.record, "wb") as file:
            file.write(text)
        for task in ("append", "check"):
            self.assert_told(run("record", task, self.record, self.newer), 2, self.record, *pieces)
        self.assertEqual(read(self.record), text)

    def test_cut_anywhere(self):
        for end in [*range(0, len(self.whole), 17), len(self.whole) - 1]:
            with self.subTest(end):
                self.assert_refused(self.whole[:end], "line ")

    def test_lines_gone_or_twice(self):
        lines = self.whole.splitlines(keepends=True)
        for place in range(len(lines)):
            with self.subTest(place):
                self.assert_refused(b"".join(lines[:place] + lines[place + 1 :]), "line ")
                self.assert_refused(b"".join(lines[: place + 1] + lines[place:]), "line ")

    def test_a_byte_changed(self):
        for place in range(0, len(self.whole), 23):
            with self.subTest(place):
                self.assert_refused(self.whole[:place] + b"7" * (self.whole[place] != 55) + b"8" * (self.whole[place] == 55) + self.whole[place + 1 :], "line ")

    def test_an_entry_edited_by_hand(self):
        """Also far from the times of the sheet at hand, where only the digest speaks."""
        later = self.sheet_of(example_rows(2000, 2003))
        text = self.whole.replace(b"8.50764021297773e-10", b"8.50764021297774e-10")
        self.assertNotEqual(text, self.whole)
        self.assert_refused(text, "line 3: no entry, as decimals and the same as words: '695309892.0 8.50764021297774e-10")
        self.newer = later
        self.assert_refused(text, "line 9: the record was changed by other hands")

    def test_foreign(self):
        for text, why in [(b"", "line 1: no record"), (b"\n", "line 1: no record"), (read(self.newer), "line 1: no record"),
                          (b"\xff" * 40, "line 1: no record"),
                          (self.whole.replace(b"record 1", b"record 2", 1), "line 1: a record of format 2, and this version reads format 1"),
                          (self.whole + b"\n", "line 9: the last line should"), (self.whole.replace(b"\n", b"\r\n"), "line 1: no record")]:
            with self.subTest(text[:20]):
                self.assert_refused(text, why)

    def test_a_block_beyond_all_memory(self):
        text = self.whole.replace(b" bytes ", b" bytes 999999999", 1)
        self.assert_refused(text, "line 2: not whole: the block announces 3 entries in 999999999")

    def test_no_record(self):
        os.unlink(self.record)
        self.assert_told(run("record", "check", self.record, self.newer), 3, self.record, "No such file")
        os.mkdir(self.record)
        self.assert_told(self.append(self.newer), 3, self.record, "Is a directory")


# a run that is killed at a certain call, as a power cut would; the call's number counts from 1
KILLED = """
import os, signal, sys
sys.path.insert(0, {path!r})
from pozsmeteg.desk.main import main
real, left = os.{call}, [{number}]
def killing(*words):
    left[0] -= 1
    if not left[0]:
        os.kill(os.getpid(), signal.SIGKILL)
    return real(*words)
os.{call} = killing
sys.exit(main(sys.argv[1:]))
"""


# a run that tells when the engine is called
TOLD = """
import sys
sys.path.insert(0, {path!r})
import pozsmeteg
from pozsmeteg.desk.main import main
real = pozsmeteg.sheet
def telling(*words):
    print("at work", flush=True)
    return real(*words)
pozsmeteg.sheet = telling
sys.exit(main(sys.argv[1:]))
"""


def killed(call, number, *words):
    code = KILLED.format(path=os.path.join(ROOT, "bindings/python"), call=call, number=number)
    return subprocess.run([sys.executable, "-c", code, *words], capture_output=True, timeout=60, check=False).returncode


class Kills(Records):
    def test_at_each_step_of_an_append(self):
        first, second = self.sheet_of(example_rows(0, 3)), self.sheet_of(example_rows(0, 6))
        self.append(first)
        before = read(self.record)
        for call in ("fchmod", "fsync", "rename"):
            with self.subTest(call):
                self.assertEqual(killed(call, 1, "record", "append", self.record, second), -signal.SIGKILL)
                self.assertEqual(read(self.record), before)
        self.assert_appended(second, 3, 3, 6)  # no lock is left behind, and what was left is in nobody's way

    def test_behind_the_rename(self):
        path = self.sheet_of(example_rows(0, 3))
        self.assertEqual(killed("fsync", 2, "record", "append", self.record, path), -signal.SIGKILL)
        self.assert_appended(path, 0, 3, 3)

    def test_of_a_sheet(self):
        target = self.written("the old sheet\n", "sheet")
        for call in ("fchmod", "fsync", "rename"):
            with self.subTest(call):
                self.assertEqual(killed(call, 1, "sheet", of_example("first.txt"), "-o", target), -signal.SIGKILL)
                self.assertEqual(read(target), b"the old sheet\n")

    def test_during_the_work(self):
        for number, left in ((signal.SIGKILL, -signal.SIGKILL), (signal.SIGTERM, 128 + signal.SIGTERM), (signal.SIGINT, 130)):
            with self.subTest(number):
                code = TOLD.format(path=os.path.join(ROOT, "bindings/python"))
                words = [sys.executable, "-c", code, "sheet", of_example("whole.txt"), "-o", self.path("sheet")]
                # a shell that runs the tests in its background has them ignore SIGINT, and what they start would too
                heard = functools.partial(signal.signal, signal.SIGINT, signal.SIG_DFL)
                running = subprocess.Popen(words, stdout=subprocess.PIPE, stderr=subprocess.PIPE, preexec_fn=heard)
                self.assertEqual(running.stdout.readline(), b"at work\n")
                time.sleep(0.2)
                running.send_signal(number)
                said = running.communicate(timeout=60)[1]
                self.assertEqual((running.returncode, said, self.files()), (left, b"", []))


class TwoOperators(Records):
    def test_at_once(self):
        paths = [self.sheet_of(example_rows(20 * k, 20 * k + 20)) for k in range(6)]
        words = [sys.executable, DESK, "record", "append", self.record]
        running = [subprocess.Popen([*words, path], stdout=subprocess.PIPE, stderr=subprocess.PIPE) for path in paths]
        for one in running:
            out, said = one.communicate(timeout=60)
            self.assertEqual((one.returncode, said), (0, b""), out)
        self.assertEqual(sorted(self.entries()), sorted(example_rows(0, 120)))
        for path in paths:
            self.assertEqual(run("record", "check", self.record, path).status, 0)

    def test_one_at_a_time(self):
        path = self.sheet_of(example_rows(0, 3))
        with open(self.path(".record.txt.lock"), "w", encoding="ascii") as lock:
            fcntl.flock(lock, fcntl.LOCK_EX)
            self.assert_told(self.append(path, "--wait", "0.2"), 3, self.record, "another append has been at work for 0.2 s")
            self.assertFalse(os.path.exists(self.record))
        self.assert_appended(path, 3, 0, 3)
        self.assert_told(self.append(path, "--wait", "long"), 2, "'long'")

    def test_a_killed_holder_holds_nothing(self):
        code = "import fcntl, sys, time; f = open(sys.argv[1], 'w'); fcntl.flock(f, fcntl.LOCK_EX); print(1, flush=True); time.sleep(60)"
        holder = subprocess.Popen([sys.executable, "-c", code, self.path(".record.txt.lock")], stdout=subprocess.PIPE)
        self.addCleanup(holder.stdout.close)
        holder.stdout.readline()
        path = self.sheet_of(example_rows(0, 3))
        self.assertEqual(self.append(path, "--wait", "0").status, 3)
        holder.kill()
        holder.wait()
        self.assert_appended(path, 3, 0, 3)

    def test_waits_for_the_other(self):
        path = self.sheet_of(example_rows(0, 3))
        with open(self.path(".record.txt.lock"), "w", encoding="ascii") as lock:
            fcntl.flock(lock, fcntl.LOCK_EX)
            running = subprocess.Popen([sys.executable, DESK, "record", "append", self.record, path], stdout=subprocess.PIPE)
            time.sleep(0.5)
            self.assertIsNone(running.poll())
        self.assertEqual(running.communicate(timeout=60)[0].decode(), SENTENCE.format(3, 0, 3))


class Room(Records):
    def test_too_little(self):
        from tests.test_outputs import limited

        first, second = self.sheet_of(example_rows(0, 3)), self.sheet_of(example_rows(0, 600))
        self.append(first)
        before, names = read(self.record), self.files()
        answer = process("record", "append", self.record, second, preexec_fn=limited(4000))
        self.assert_told(answer, 3, self.record, "cannot be written: File too large")
        self.assertEqual((read(self.record), self.files()), (before, names))
        self.assert_appended(second, 597, 3, 600)
