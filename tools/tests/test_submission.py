"""Folders of decimal tables, the text of a submission, and back."""
import os
import random
import shutil
import struct

from tests.common import INFINITY, NAN, SMALL, SUBMISSION, ZERO, Case, double, parts, read, run, sections, submission, text_of, word

HARD = [0.0, -0.0, 5e-324, -5e-324, 2.2250738585072009e-308, 2.2250738585072014e-308, 1.7976931348623157e308, -1.7976931348623157e308, 0.1, 1 / 3,
        9007199254740993.0, 1e22, 1e23, 5e-300, 4.35, 123456789.12345679]


def field_rows(degree, value="0.0"):
    return "".join(f"{n},{m},{value},{value}\n" for n in range(degree + 1) for m in range(n + 1))


TABLES = {
    "degree.csv": "degree,gm,radius\n2,3.986004415e14,6378136.3\n",
    "static.csv": "n,m,C,S\n" + field_rows(2),
    "fields.csv": "time,gm,radius,file\n0,1.0,2.0,one.csv\n10,1.0,2.0,two.csv\n",
    "one.csv": "n,m,C,S\n" + field_rows(2),
    "two.csv": "n,m,C,S\n" + field_rows(2, "1e-9"),
    "states_c.csv": "second,x,y,z,vx,vy,vz\n4,1,2,3,4,5,6\n6,1,2,3,4,5,6\n",
    "acc_c.csv": "second,value\n4,1e-8\n",
    "states_d.csv": "second,x,y,z,vx,vy,vz\n",
    "acc_d.csv": "second,value\n",
    "nodes.csv": "time\n0.5\n7.25\n",
    "observations.csv": "time,value,good\n1,1e-9,1\n3.5,-1e-9,0\n",
}


class Folder(Case):
    def tables(self, **changes):
        """A folder with these tables; `name_csv` stands for name.csv, None for no such file."""
        folder = self.path(f"tables{len(os.listdir(self.folder))}")
        os.mkdir(folder)
        wanted = {**TABLES, **{name.replace("_csv", ".csv"): text for name, text in changes.items()}}
        for name, text in wanted.items():
            if text is not None:
                self.written(text, os.path.join(folder, name))
        return folder

    def made(self, folder):
        """The text that a folder becomes."""
        path = self.path("made.txt")
        self.assert_fine(run("submission", folder, "-o", path))
        return text_of(path)

    # ---- what is taken

    def test_plain(self):
        lists = parts(self.made(self.tables()))
        self.assertEqual(lists["degree"], [word(2)])
        self.assertEqual(lists["static"], [" ".join([double(3.986004415e14), double(6378136.3), *[ZERO] * 12])])
        self.assertEqual(lists["fields"][1], " ".join([double(10), double(1), double(2), *[double(1e-9)] * 12]))
        self.assertEqual(lists["states_c"][1], " ".join([word(6), *(double(k) for k in range(1, 7))]))
        self.assertEqual(lists["acc_c"], [f"{word(4)} {double(1e-8)}"])
        self.assertEqual((lists["states_d"], lists["acc_d"]), ([], []))
        self.assertEqual(lists["nodes"], [double(0.5), double(7.25)])
        self.assertEqual(lists["observations"], [f"{double(1)} {double(1e-9)} {word(1)}", f"{double(3.5)} {double(-1e-9)} {word(0)}"])

    def test_other_forms(self):
        plain = self.made(self.tables())
        forms = {
            "carriage returns": lambda text: text.replace("\n", "\r\n"),
            "a byte-order mark": lambda text: "\ufeff" + text,
            "both": lambda text: "\ufeff" + text.replace("\n", "\r\n"),
            "white space": lambda text: text.replace(",", " \t "),
            "spaces about commas": lambda text: text.replace(",", " , "),
            "spaces at both ends": lambda text: "".join(f"  {line} \n" for line in text.splitlines()),
            "empty lines": lambda text: "\n" + text.replace("\n", "\n\n"),
            "no line feed at the end": lambda text: text[:-1],
        }
        for name, form in forms.items():
            with self.subTest(name):
                changed = {file.replace(".csv", "_csv"): form(text) for file, text in TABLES.items()}
                self.assertEqual(self.made(self.tables(**changed)), plain)

    def test_columns_and_rows_in_another_order(self):
        plain = self.made(self.tables())
        acc = "value second\n1e-8 4\n"
        static = "S,C,m,n\n" + "".join(f"0.0,0.0,{m},{n}\n" for m in range(3) for n in range(2, m - 1, -1))
        self.assertEqual(self.made(self.tables(acc_c_csv=acc, static_csv=static)), plain)

    def test_decimals_to_the_nearest_double(self):
        for decimal, value in [
            ("9007199254740993", 9007199254740992.0), ("0.1", 0.1), (".5", 0.5), ("5.", 5.0), ("+1E+2", 100.0), ("-0", -0.0), ("1e-400", 0.0),
            ("2.4703282292062328e-324", 5e-324), ("2.4703282292062327e-324", 0.0), ("1.7976931348623158e308", 1.7976931348623157e308),
            ("0.1000000000000000055511151231257827021181583404541015625", 0.1), ("1" + "0" * 300, 1e300),
        ]:
            with self.subTest(decimal):
                text = self.made(self.tables(acc_c_csv=f"second,value\n4,{decimal}\n"))
                self.assertEqual(parts(text)["acc_c"], [f"{word(4)} {double(value)}"])

    # ---- what is refused

    def test_cells(self):
        for cell, why in [
            ("", "is no decimal number"), ("x", "is no decimal number"), ("1,5", "and there are 3"), ("1 5", "is no decimal number"),
            ("nan", "is no decimal number"), ("inf", "is no decimal number"), ("-Infinity", "is no decimal number"), ("1e400", "is beyond the largest"),
            ("1_000", "is no decimal number"), ("0x1p3", "is no decimal number"), ("1d-8", "is no decimal number"), ("--1", "is no decimal number"),
            ("1e", "is no decimal number"), (".", "is no decimal number"), ("\u0661", "is no decimal number"), ("\ufeff1", "is no decimal number"),
        ]:
            with self.subTest(cell):
                folder = self.tables(acc_c_csv=f"second,value\n4,1e-8\n5,{cell}\n")
                quoted = "5,1,5" if cell == "1,5" else "\\ufeff1" if "\ufeff" in cell else cell
                self.assert_told(run("submission", folder, "-o", self.path("x")), 2, os.path.join(folder, "acc_c.csv"), "line 3", f"'{quoted}'", why)
                self.assertFalse(os.path.exists(self.path("x")))

    def test_whole_numbers_and_bounds(self):
        faults = [
            ("acc_c", "second,value\n4.0,1\n", "line 2: second '4.0' is no whole number"),
            ("acc_c", "second,value\n-1,1\n", "line 2: second '-1' is not from 0 to 2147483648"),
            ("acc_c", "second,value\n2147483649,1\n", "line 2: second '2147483649' is not from 0"),
            ("acc_c", "second,value\n99999999999999999999,1\n", "line 2: second '99999999999999999999' is no whole number"),
            ("acc_c", "second,value\n4,1\n4,1\n", "line 3: second 4 is not above the one before, 4"),
            ("states_c", "second,x,y,z,vx,vy,vz\n6,1,2,3,4,5,6\n4,1,2,3,4,5,6\n", "line 3: second 4 is not above"),
            ("nodes", "time\n1\n0.5\n", "line 3: time 0.5 is not above the one before, 1.0"),
            ("nodes", "time\n-1\n", "line 2: time '-1' is not from 0"),
            ("nodes", "time\n2147483648.5\n", "line 2: time '2147483648.5' is not from 0"),
            ("observations", "time,value,good\n1,1,256\n", "line 2: good '256' is not from 0 to 255"),
            ("observations", "time,value,good\n1,1,yes\n", "line 2: good 'yes' is no whole number"),
            ("observations", "time,value,good\n1,1,1\n1,1,1\n", "line 3: time 1.0 is not above"),
        ]
        for name, text, why in faults:
            with self.subTest(text):
                folder = self.tables(**{f"{name}_csv": text})
                self.assert_told(run("submission", folder, "-o", self.path("x")), 2, f"{os.path.join(folder, name)}.csv: {why}")

    def test_headers(self):
        for text, why in [
            ("", "there is no header row"), ("\n\n", "there is no header row"), ("second\n4\n", "the column 'value' is missing in 'second'"),
            ("second,values\n4,1\n", "the column 'values' is none of this table"), ("second,value,value\n4,1,1\n", "the column 'value' stands twice"),
            ("second;value\n4;1\n", "the column 'second;value' is none"), ("4,1e-8\n", "the column '4' is none of this table"),
            ("second,value,\n4,1,\n", "the column '' is none"), ("Second,value\n4,1\n", "the column 'Second' is none"),
        ]:
            with self.subTest(text):
                folder = self.tables(acc_c_csv=text)
                self.assert_told(run("submission", folder, "-o", self.path("x")), 2, os.path.join(folder, "acc_c.csv"), why, "second,value")

    def test_rows(self):
        for text, why in [("second,value\n4\n", "line 2: 2 cells are needed (second,value), and there are 1: '4'"),
                          ("second,value\n4,1,2\n", "there are 3: '4,1,2'"), ("second value\n4,1\n", "there are 1: '4,1'"),
                          ("second,value\n4 1\n", "there are 1: '4 1'")]:
            with self.subTest(text):
                self.assert_told(run("submission", self.tables(acc_c_csv=text), "-o", self.path("x")), 2, "acc_c.csv: line", why)

    def test_fields(self):
        rows = TABLES["static.csv"]
        for changes, why in [
            ({"degree_csv": "degree,gm,radius\n"}, "degree.csv: one row is needed behind the header, and there are 0"),
            ({"degree_csv": "degree,gm,radius\n2,1,1\n2,1,1\n"}, "one row is needed behind the header, and there are 2"),
            ({"degree_csv": "degree,gm,radius\n1,1,1\n"}, "degree.csv: line 2: the degree 1 is not from 2 to 180"),
            ({"degree_csv": "degree,gm,radius\n181,1,1\n"}, "degree.csv: line 2: the degree 181 is not from 2 to 180"),
            ({"static_csv": rows.replace("2,1,0.0,0.0\n", "")}, "static.csv: n 2, m 1 is missing: a field of degree 2 has 6 rows, and there are 5"),
            ({"static_csv": rows + "2,1,0.0,0.0\n"}, "static.csv: line 8: n 2, m 1 stands twice"),
            ({"static_csv": rows + "3,0,0.0,0.0\n"}, "static.csv: line 8: n 3, m 0 is not in a field of degree 2"),
            ({"one_csv": rows.replace("2,1,", "1,2,")}, "one.csv: line 6: n 1, m 2 is not in a field"),
            ({"fields_csv": "time,gm,radius,file\n0,1,1,a b\n"}, "fields.csv: line 2: file 'a b' is no plain file name"),
            ({"fields_csv": "time,gm,radius,file\n0,1,1,../one.csv\n"}, "fields.csv: line 2: file '../one.csv' is no plain file name"),
            ({"fields_csv": TABLES["fields.csv"].replace("\n0,", "\n20,")}, "fields.csv: line 3: time 10.0 is not above the one before, 20.0"),
        ]:
            with self.subTest(why):
                self.assert_told(run("submission", self.tables(**changes), "-o", self.path("x")), 2, why)

    def test_missing_files(self):
        for name in TABLES:
            with self.subTest(name):
                folder = self.tables(**{name.replace(".csv", "_csv"): None})
                self.assert_told(run("submission", folder, "-o", self.path("x")), 3, os.path.join(folder, name), "No such file")
        self.assert_told(run("submission", self.path("none"), "-o", self.path("x")), 3, "none", "is no folder")
        self.assert_told(run("submission", self.written("x"), "-o", self.path("x")), 3, "is no folder")

    def test_foreign_bytes(self):
        for text in (b"\xff\xfes\x00e\x00", b"\x00\x01\x02", b"PK\x03\x04", bytes(range(256))):
            with self.subTest(text[:8]):
                self.assert_told(run("submission", self.tables(acc_c_csv=text), "-o", self.path("x")), 2, "acc_c.csv: line 1")


class RoundTrip(Case):
    def back(self, text):
        """The text that comes back by way of a folder."""
        path, folder, again = self.written(text), self.path("folder"), self.path("again.txt")
        shutil.rmtree(folder, ignore_errors=True)
        self.assert_fine(run("show", path, folder))
        self.assert_fine(run("submission", folder, "-o", again))
        return text_of(again)

    def test_the_example(self):
        self.assertEqual(self.back(text_of(SUBMISSION)), text_of(SUBMISSION))

    def test_small(self):
        self.assertEqual(self.back(SMALL), SMALL)

    def test_hard_numbers(self):
        luck = random.Random(5)
        numbers = HARD + [x for x in (struct.unpack("d", luck.randbytes(8))[0] for _ in range(300)) if x - x == 0.0]
        words = [double(x) for x in numbers]
        rows = {
            "acc_c": [f"{word(k)} {w}" for k, w in enumerate(words)],
            "states_d": [" ".join([word(k), *words[k : k + 6]]) for k in range(len(words) - 6)],
            "static": [" ".join(words[:14])],
            "fields": [" ".join([double(k), *words[k : k + 14]]) for k in range(30)],
            "observations": [f"{double(k + 0.1)} {w} {word(k % 256)}" for k, w in enumerate(words)],
            "nodes": [double(-0.0), double(5e-324), double(0.1), double(2.0**31)],
        }
        text = submission(sections(**rows))
        self.assertEqual(self.back(text), text)

    def test_degree_180(self):
        count = 181 * 182
        static = " ".join(double(k / 7) for k in range(count + 2))
        text = submission(sections(degree=[word(180)], static=[static], fields=[f"{double(t)} {static}" for t in (0, 1)]))
        self.assertEqual(self.back(text), text)

    def test_numbers_that_no_table_has(self):
        for bits, name in ((NAN, "nan"), (INFINITY, "inf")):
            path = self.written(submission(sections(acc_c=[f"{word(5)} {ZERO}", f"{word(7)} {bits}"])))
            line = text_of(path).splitlines().index(f"{word(7)} {bits}") + 1
            self.assert_told(run("show", path, self.path("folder")), 2, path, f"line {line}", f"{name} in 'acc_c'")
            self.assertFalse(os.path.exists(self.path("folder")))

    def test_where_the_folder_goes(self):
        path = self.written(SMALL, "small.txt")
        os.mkdir(self.path("empty"))
        self.assert_fine(run("show", path, self.path("empty")))
        before = sorted(os.listdir(self.path("empty")))
        self.assertIn("observations.csv", before)
        self.assert_told(run("show", path, self.path("empty")), 2, self.path("empty"), "a new folder or an empty one")
        self.assert_told(run("show", path, path), 2, path, "a new folder or an empty one")
        self.assert_told(run("show", path, self.path("none/folder")), 3, "none/folder", "No such file")
        self.assertEqual((sorted(os.listdir(self.path("empty"))), self.files()), (before, ["empty", "small.txt"]))


class Text(Case):
    """Texts that are no submissions, given to each command that reads one."""

    def commands(self, path):
        yield ("sheet", path, "-o", self.path("none"))
        yield ("show", path, self.path("none"))
        yield ("cut", path, "5")
        yield ("explain", path)

    def broken(self):
        yield "an empty file", "the file is empty", ""
        yield "a sheet", "line 1: here should stand 'degree'", "kept 0 final 0\n"
        yield "no ASCII", "line 1: here should stand 'degree'", b"\xff\xfe\x00"
        yield "a table", "line 1: here should stand 'degree'", "second,value\n"
        yield "carriage returns", "line 1: here should stand 'degree'", SMALL.replace("\n", "\r\n")
        yield "a degree of 1", "line 2: the degree is 1, not from 2 to 180", SMALL.replace(word(2), word(1), 1)
        yield "a degree of 181", "line 2: the degree is 181", SMALL.replace(word(2), word(181), 1)
        yield "a degree of 2^63", "line 2: the degree is 9223372036854775808", SMALL.replace(word(2), word(2**63), 1)
        yield "two degrees", "line 1: the section 'degree' has one line, not 2", SMALL.replace("degree 1", "degree 2")
        yield "a section missing", "here should stand 'nodes'", SMALL.replace(f"nodes 2\n{ZERO}\n{double(1)}\n", "")
        yield "a line more than counted", "line 17: here should stand 'observations'", SMALL.replace("nodes 2", "nodes 1")
        yield "a line fewer than counted", "line 18: no word of 16 digits", SMALL.replace("nodes 2", "nodes 3")
        yield "a count with a zero in front", "here should stand 'nodes'", SMALL.replace("nodes 2", "nodes 02")
        yield "a count of 5000 digits", "here should stand 'nodes'", SMALL.replace("nodes 2", "nodes " + "9" * 5000)
        yield "lower case", "no word of 16 digits", SMALL.replace(double(1) + "\nobs", double(1).lower() + "\nobs")
        yield "two spaces", "no line of 2 words", SMALL.replace(f"{word(5)} {ZERO}\nstates_d", f"{word(5)}  {ZERO}\nstates_d")
        yield "a short word", "no line of 2 words", SMALL.replace(f"{word(5)} {ZERO}\nstates_d", f"{word(5)} {ZERO[1:]}\nstates_d")
        yield "a good byte of 256", "the good byte is 256", SMALL[: SMALL.rindex(" ")] + f" {word(256)}\n"
        yield "something behind the end", "line 22: something stands behind the last section: 'x'", SMALL + "x\n"
        yield "no line feed at the end", "the text ends within 'observations'", SMALL[:-1]
        yield "a count and nothing behind it", "the text ends within 'observations'", SMALL[: SMALL.rindex("3\n") + 2]

    def test_broken(self):
        for name, why, text in self.broken():
            path = self.written(text)
            for words in self.commands(path):
                with self.subTest(f"{words[0]}: {name}"):
                    self.assert_told(run(*words), 2, path, why)
        self.assertFalse(os.path.exists(self.path("none")))

    def test_cut_anywhere(self):
        for end in range(1, len(SMALL), 29):
            with self.subTest(end):
                self.assert_told(run("cut", self.written(SMALL[:end], "text"), "5"), 2, "line ")

    def test_good_byte_names_its_line(self):
        text = submission(sections(observations=[f"{double(t)} {ZERO} {word(300 if t == 1 else 1)}" for t in range(4)]))
        line = next(k for k, row in enumerate(text.splitlines(), 1) if row.endswith(word(300)))
        self.assert_told(run("cut", self.written(text), "5"), 2, f"line {line}: the good byte is 300")


class Cut(Case):
    def test_behind_the_end(self):
        answer = run("cut", SUBMISSION, "695330000")
        self.assert_fine(answer)
        self.assertEqual(answer.out, text_of(SUBMISSION))

    def test_in_the_middle(self):
        answer, path = run("cut", SUBMISSION, "695320200"), self.path("cut.txt")
        self.assert_fine(answer)
        whole, short = parts(text_of(SUBMISSION)), parts(answer.out)
        self.assertEqual(list(short), list(whole))
        for name in ("degree", "static", "fields", "nodes"):
            self.assertEqual(short[name], whole[name])
        for name in ("states_c", "acc_c", "states_d", "acc_d"):
            self.assertEqual(short[name], [line for line in whole[name] if int(line[:16], 16) <= 695320200])
        last = struct.pack(">d", 695320200.0).hex().upper()
        self.assertEqual(short["observations"], [line for line in whole["observations"] if line[:16] <= last])
        self.assert_fine(run("cut", SUBMISSION, "695320200", "-o", path))
        self.assertEqual(read(path).decode("ascii"), answer.out)

    def test_no_second(self):
        for wrong in ("noon", "nan", "inf", ""):
            self.assert_told(run("cut", SUBMISSION, wrong), 2, f"the second '{wrong}' is no number")
