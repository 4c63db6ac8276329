"""Working out sheets, and reading them: table, picture, final, compare, explain."""
import os
import xml.dom.minidom

from pozsmeteg.desk import clock, picture, progress
from tests.common import (
    FIRST, LISTS, NAN, SMALL, SUBMISSION, WHOLE, ZERO, Case, digest_of, double, example_rows, headed, number_of, of_example, run, sections, sheet,
    submission, text_of, word)


class Engine(Case):
    def test_the_example_bit_for_bit(self):
        for name, expected in (("first", FIRST), ("whole", WHOLE)):
            made = text_of(of_example(f"{name}.sheet"))
            digest = digest_of(of_example(f"{name}.txt"))
            self.assertEqual(made.split("\n", 2)[:2], ["sheet 1 pozsmeteg 0.1.0", f"submission sha256 {digest}"])
            self.assertTrue(made.split("\n", 2)[2] == text_of(expected), name)

    def test_nothing_kept(self):
        path = self.written(SMALL)
        self.assert_fine(run("sheet", path, "-o", self.path("sheet")))
        self.assertEqual(text_of(self.path("sheet")), headed("kept 0 final 0\n", digest_of(path)))

    def test_refusals(self):
        rows = sections()
        for name, changes, number, where, offender in [
            ("nodes that fall", {"nodes": [double(1), double(0)]}, 5, "row 2 of 'nodes'", double(0)),
            ("a node beyond the bound", {"nodes": [double(1), double(2.0**32)]}, 4, "row 2 of 'nodes'", double(2.0**32)),
            ("a key above 2^31", {"acc_c": [f"{word(5)} {ZERO}", f"{word(2**31 + 1)} {ZERO}"]}, 4, "row 2 of 'acc_c'", word(2**31 + 1)),
            ("a key of 2^64 - 1", {"acc_c": [f"{word(2**64 - 1)} {ZERO}"]}, 4, "row 1 of 'acc_c'", word(2**64 - 1)),
            ("a state that is no number", {"states_c": [rows["states_c"][0], rows["states_c"][1][:-16] + NAN]}, 4, "row 2 of 'states_c'", NAN),
            ("a key twice", {"states_c": [rows["states_c"][0]] * 2}, 5, "row 2 of 'states_c'", word(5)),
            ("an observed time twice", {"observations": [rows["observations"][1]] * 2}, 5, "row 2 of 'observations'", double(1)),
            ("an observed value that is no number", {"observations": [f"{double(3)} {NAN} {word(1)}"]}, 4, "row 1 of 'observations'", NAN),
            ("a coefficient that is no number", {"fields": [rows["fields"][0], rows["fields"][1][:-16] + NAN]}, 4, "row 2 of 'fields'", NAN),
        ]:
            with self.subTest(name):
                path = self.written(submission(sections(**changes)))
                answer = run("sheet", path, "-o", self.path("none"))
                self.assert_told(answer, 2, path, f"refused {number}: ", where)
                line = int(answer.said.rsplit("line ", 1)[1])
                self.assertIn(offender, text_of(path).splitlines()[line - 1])
        for name, changes, where in [("one field", {"fields": rows["fields"][:1]}, "'fields', line 5"),
                                     ("65 nodes", {"nodes": [double(k) for k in range(65)]}, "'nodes', line 15")]:
            with self.subTest(name):
                self.assert_told(run("sheet", self.written(submission(sections(**changes))), "-o", self.path("none")), 2, "refused 2: ", where)
        self.assertFalse(os.path.exists(self.path("none")))

    def test_a_number_beyond_all_bounds(self):
        head, seen = text_of(SUBMISSION).split("observations ")
        count, *lines = seen.splitlines()
        spoiled = "".join(f"{line[:16]} 7FEFFFFFFFFFFFFF {line[34:]}\n" for line in lines)
        path = self.written(f"{head}observations {count}\n{spoiled}")
        self.assert_told(run("sheet", path, "-o", self.path("none")), 2, path, "refused 10: ")

    def test_largest_lists(self):
        """More than sheet_program takes: 200,000 states, 100,000 observations, 64 nodes, 32 fields."""
        field = " ".join([ZERO] * 14)
        lists = {name: [" ".join([word(k)] + [ZERO] * (6 if "states" in name else 1)) for k in range(200000)] for name in LISTS}
        seen = [f"{double(k)} {ZERO} {word(0)}" for k in range(100000)]
        nodes = [double(8000.0 * k) for k in range(64)]
        text = submission(sections(fields=[f"{double(k)} {field}" for k in range(32)], nodes=nodes, observations=seen, **lists))
        self.assert_fine(run("sheet", self.written(text), "-o", self.path("sheet")))
        self.assertTrue(text_of(self.path("sheet")).endswith("\nkept 0 final 0\n"))

    def test_a_sheet_gives_way(self):
        path, target = self.written(SMALL), self.written("an older one\n", "sheet")
        os.chmod(target, 0o640)
        self.assert_fine(run("sheet", path, "-o", target))
        self.assertTrue(text_of(target).startswith("sheet 1 "))
        self.assertEqual(os.stat(target).st_mode & 0o777, 0o640)
        link = self.path("link")
        os.symlink(target, link)
        self.assert_fine(run("sheet", self.written(SMALL.replace(word(5), word(4), 1)), "-o", link))
        self.assertTrue(os.path.islink(link))
        self.assertNotIn(digest_of(path), text_of(target))


class Progress(Case):
    def test_words(self):
        told = [progress.told(s) for s in (0.4, 59.6, 61, 3599, 3600, 7325)]
        self.assertEqual(told, ["0 s", "1 min 00 s", "1 min 01 s", "59 min 59 s", "1 h 00 min", "2 h 02 min"])

    def test_quiet_unless_asked(self):
        said = []
        for asked in (False, True):
            teller = progress.Teller("sheet of x", 100.0, asked)
            teller.put = said.append
            teller.tick()
            teller.tick()
        self.assertEqual(said, ["sheet of x: 0 s gone, about 1 min 40 s in all"])

    def test_faults_come_out(self):
        with self.assertRaises(ZeroDivisionError):
            progress.worked(lambda: 1 / 0, progress.Teller("x", 0.0, False))
        self.assertEqual(progress.worked(lambda: 7, progress.Teller("x", 0.0, False)), 7)


class Table(Case):
    def test_the_example(self):
        answer = run("table", WHOLE, SUBMISSION)
        self.assert_fine(answer)
        lines = answer.out.splitlines()
        self.assertEqual(lines[0], "5561 entries, 5486 of them final; horizon: 695321222.239 s, 2022-01-13 04:47:02.239 GPS time")
        self.assertEqual(len(lines), 5563)
        self.assertEqual([line.endswith(" final") for line in lines[2:]], [True] * 5486 + [False] * 75)
        self.assertEqual(lines[2].split(), "1 2022-01-13 01:38:12.000 695309892.0000 0.8508 0.4120 blanked final".split())
        self.assertEqual(lines[2].split()[-1], "final")
        blanked = sum("blanked" in line for line in lines[2:])
        self.assertEqual(blanked, sum(row.endswith(ZERO) for row in example_rows(0, 5561)))

    def test_every(self):
        answer = run("table", WHOLE, "--every", "1000")
        shown = [line.split()[0] for line in answer.out.splitlines()[2:]]
        self.assertEqual([n for n in shown if n != "..."], "1 1001 2001 3001 4001 5001 5486 5487 5561".split())
        self.assertEqual(answer.out.splitlines()[0], "5561 entries, 5486 of them final")
        for wrong in ("some", "0", "-1", "1.5"):
            self.assert_told(run("table", WHOLE, "--every", wrong), 2, f"'{wrong}'")

    def test_five_words(self):
        rows = [f"{row} {double(220123.25 + k)}" for k, row in enumerate(example_rows(0, 100))]
        answer = run("table", self.written(headed(sheet(rows))))
        self.assertIn("distance (m)", answer.out.splitlines()[1])
        self.assertEqual(answer.out.splitlines()[3].split()[-2:], ["220124.2500", "final"])

    def test_a_submission_that_is_refused(self):
        path = self.written(submission(sections(nodes=[double(1), double(0)])))
        for words in (("table", WHOLE, path), ("picture", WHOLE, path, "-o", self.path("none"))):
            self.assert_told(run(*words), 2, f"{path}: refused 5: ", "row 2 of 'nodes', line 17")

    def test_no_entries(self):
        answer = run("table", self.written("kept 0 final 0\n"), SUBMISSION)
        self.assert_fine(answer)
        self.assertTrue(answer.out.startswith("0 entries, 0 of them final; horizon: 695321222.239 s"))
        self.assertIn("horizon: none", run("table", self.written("kept 0 final 0\n"), self.written(SMALL)).out)

    def test_clock(self):
        self.assertEqual(clock.precise(0.0), "2000-01-01 12:00:00.000")
        self.assertEqual(clock.precise(695309902.9996), "2022-01-13 01:38:23.000")
        self.assertEqual(clock.precise(2.0**31), "2068-01-19 15:14:08.000")


class Picture(Case):
    def drawn(self, *words):
        path = self.path("picture.svg")
        self.assert_fine(run("picture", *words, "-o", path))
        return xml.dom.minidom.parse(path)

    def texts(self, drawn):
        return [node.firstChild.data for node in drawn.getElementsByTagName("text")]

    def test_the_example(self):
        drawn = self.drawn(of_example("whole.sheet"), SUBMISSION)
        words = self.texts(drawn)
        self.assertIn("5561 entries, 5486 final, 75 may still move", words)
        self.assertIn("horizon 2022-01-13 04:47:02.239, 695321222.239 s", words)
        self.assertIn("2022-01-13 02:00", words)
        self.assertIn("695311200 s", words)
        dashes = [line.getAttribute("stroke-dasharray") for line in drawn.getElementsByTagName("line")]
        self.assertEqual((dashes.count("2 4"), dashes.count("8 4")), (1 + 2, 1 + 1))  # one of each in the legend
        self.assertEqual(sum(box.getAttribute("class") == "blanked" for box in drawn.getElementsByTagName("rect")), 44)
        self.assertEqual(len(drawn.getElementsByTagName("polyline")), 3 * 76)

    def test_all_labels_are_inside(self):
        alike = [(self.of_one(value),) for value in (0.0, 5e-324, 1e-300, 1e-9, 1e-5, 1e300)]
        for words in ((of_example("whole.sheet"), SUBMISSION), (self.short(),), (self.five(),), *alike):
            drawn = self.drawn(*words)
            frame = drawn.documentElement
            width, height = (float(frame.getAttribute(name)) for name in ("width", "height"))
            for node in drawn.getElementsByTagName("text"):
                left, right, y = self.span(node)
                self.assertTrue(0 <= left and right <= width and 10 <= y <= height - 4, node.toxml())

    def span(self, node):
        """Where a label begins and ends, at six tenths of its height for a letter."""
        x, y = float(node.getAttribute("x")), float(node.getAttribute("y"))
        if node.hasAttribute("transform"):
            return x, x, y
        length = 0.6 * float(node.getAttribute("font-size")) * len(node.firstChild.data)
        left = x - {"start": 0.0, "middle": 0.5, "end": 1.0}[node.getAttribute("text-anchor")] * length
        return left, left + length, y

    def of_one(self, value):
        """A sheet with the same number everywhere."""
        return self.written(sheet([" ".join([double(k), *[double(value)] * 4]) for k in range(3)]))

    def short(self):
        return self.written(sheet(example_rows(30, 31)))

    def five(self):
        return self.written(sheet([f"{row} {double(220123.25 + k)}" for k, row in enumerate(example_rows(0, 200))]))

    def test_five_words(self):
        drawn = self.drawn(self.five())
        self.assertIn("distance (km)", self.texts(drawn))
        self.assertEqual(len({line.getAttribute("points") for line in drawn.getElementsByTagName("polyline")}), 16)

    def test_thinned_keeps_the_ends(self):
        points = [(k / 1000, (k * 37) % 101) for k in range(1000)]
        kept = list(picture.thinned(points))
        self.assertEqual((min(y for x, y in kept), max(y for x, y in kept)), (0, 100))
        self.assertEqual((kept[0], kept[-1]), (points[0], points[-1]))
        self.assertLessEqual(len(kept), 3 * 4)

    def test_none(self):
        empty = self.written("kept 0 final 0\n")
        self.assert_told(run("picture", empty, "-o", self.path("none.svg")), 2, empty, "has no picture")
        self.assertFalse(os.path.exists(self.path("none.svg")))


class Final(Case):
    def test_exact(self):
        answer = run("final", WHOLE)
        self.assert_fine(answer)
        lines = answer.out.splitlines()
        self.assertEqual([line.split()[4:] for line in lines], [row.split() for row in example_rows(0, 5486)])
        for line in lines:
            cells = line.split()
            self.assertEqual([double(float(cell)) for cell in cells[:4]], cells[4:])

    def test_hard_numbers(self):
        words = [double(x) for x in (1.0, -0.0, 5e-324, 1.7976931348623157e308, 0.1)]
        answer = run("final", self.written(sheet([" ".join(words)])))
        self.assertEqual(answer.out, "1.0 -0.0 5e-324 1.7976931348623157e+308 0.1 " + " ".join(words) + "\n")
        self.assertEqual(run("final", self.written(sheet([" ".join(words)], 0))).out, "")


class Compare(Case):
    def words(self, answer):
        return [" ".join(line.split()) for line in answer.out.splitlines()]

    def test_the_example(self):
        answer = run("compare", of_example("first.sheet"), of_example("whole.sheet"))
        self.assert_fine(answer)
        self.assertEqual(self.words(answer), [
            "earlier sheet: 5054 entries, 2624 final; later sheet: 5561 entries, 5486 final",
            "2624 final stayed entries 1-2624",
            "151 may still move moved: passed entries 2625-2775",
            "614 may still move moved: raw, detrended entries 3236-3319, 3738-3779, 3849-4006, 4242-4299 and 2 more stretches",
            "1665 may still move moved: raw, detrended, passed entries 2776-3235, 3320-3737, 3780-3848, 4007-4241 and 3 more stretches",
            "507 new",
            "no final entry moved"])
        self.assertEqual(run("compare", FIRST, WHOLE).out, answer.out)

    def test_a_final_count_that_fell(self):
        answer = run("compare", WHOLE, FIRST)
        self.assertEqual((answer.status, answer.said), (1, ""))
        self.assertIn("the final count fell: the later submission does not begin with the earlier one", answer.out)

    def test_one_bit(self):
        rows = text_of(WHOLE).splitlines()
        for column in range(3):
            at = 17 * (column + 1) + 15
            moved = list(rows)
            moved[100] = rows[100][:at] + ("0" if rows[100][at] != "0" else "1") + rows[100][at + 1 :]
            answer = run("compare", FIRST, self.written("\n".join(moved) + "\n"))
            self.assertEqual(answer.status, 1)
            self.assertTrue(answer.out.endswith("1 final entry moved\n"), answer.out)
            self.assertIn(f"1 final moved: {('raw', 'detrended', 'passed')[column]} entries 100", self.words(answer))

    def test_gone_and_at_another_place(self):
        rows = example_rows(0, 5)
        answer = run("compare", self.written(sheet(rows)), self.written(sheet(rows[1:] + example_rows(5, 7))))
        self.assertEqual(answer.status, 1)
        self.assertIn("1 final gone entries 1", self.words(answer))
        self.assertIn("4 final stayed, at another place entries 2-5", self.words(answer))

    def test_five_words(self):
        four = example_rows(0, 3)
        five = [f"{row} {double(k)}" for k, row in enumerate(four)]
        mixed = run("compare", self.written(sheet(four)), self.written(sheet(five)))
        self.assertEqual(mixed.status, 0)
        self.assertIn("one sheet has no distances, so they are not compared", mixed.out)
        other = [five[0], five[1], five[2][:-1] + "1"]
        answer = run("compare", self.written(sheet(five)), self.written(sheet(other)))
        self.assertEqual(answer.status, 1)
        self.assertIn("1 final moved: distance entries 3", self.words(answer))

    def test_no_entries(self):
        self.assert_fine(run("compare", self.written("kept 0 final 0\n"), WHOLE))


class Explain(Case):
    def test_the_example(self):
        answer = run("explain", of_example("first.txt"), of_example("first.sheet"))
        self.assert_fine(answer)
        lines = [line.strip() for line in answer.out.splitlines()]
        for line in (
            "windows between neighbouring nodes: 3",
            "observations: 8021, of which 5054 are kept",
            "73 dropped: not good (rows 45, 320, 460, 513, 533, ...)",
            "2894 dropped: no fitted state of C (rows 1, 2, 3, 4, 5, ...)",
            "runs of kept epochs: 72, of which 29 are passed and 43 blanked (64 epochs or fewer)",
            "... 48 more (--all tells them)",
            "final: 2624 of 5054 entries",
            "horizon: 695315556.681 s (2022-01-13 03:12:36.681)",
            "the next node that could be the horizon: 695321222.239 s (2022-01-13 04:47:02.239)",
            "waits for 'states_c', which ends at 695320200.000 s, 2826.239 s short of 695323026.239 s  <- holds it back most",
        ):
            self.assertIn(line, lines)
        self.assertIn("C skipped: uncovered; D skipped: uncovered", lines[1])
        self.assertTrue(lines[2].endswith(": C fitted, rms 0.009799 m; D fitted, rms 0.009798 m"), lines[2])
        self.assertEqual(run("explain", of_example("first.txt")).out, answer.out)

    def test_all_runs(self):
        out = run("explain", of_example("first.txt"), of_example("first.sheet"), "--all").out
        self.assertEqual(sum(" epochs, entries " in line for line in out.splitlines()), 72)
        self.assertIn("23 epochs, entries 1 to 23, 695309892.000 s (2022-01-13 01:38:12.000) to", out)

    def test_warnings_and_empty_lists(self):
        answer = run("explain", self.written(SMALL))
        self.assert_fine(answer)
        self.assertIn("waits for 'states_d', which is empty", answer.out)
        self.assertIn("warning: The sheet has no entry", answer.out)

    def test_another_sheet(self):
        foreign = self.written(sheet(example_rows(0, 20)))
        self.assert_told(run("explain", self.written(SMALL), foreign), 2, foreign, "not the sheet of")

    def test_refused(self):
        path = self.written(submission(sections(nodes=[double(1), double(0)])))
        self.assert_told(run("explain", path), 2, path, "refused 5", "row 2 of 'nodes', line 17")


class WrongSubmission(Case):
    def test_each_reader(self):
        made, other = of_example("whole.sheet"), of_example("first.txt")
        for words in (("table", made, other), ("picture", made, other, "-o", self.path("none")), ("explain", other, made)):
            with self.subTest(words[0]):
                self.assert_told(run(*words), 2, f"{other}: not the submission of {made}", digest_of(other), digest_of(SUBMISSION))
        self.assertFalse(os.path.exists(self.path("none")))

    def test_a_digit_more_or_less(self):
        changed = self.written(text_of(SUBMISSION)[:-2] + "2\n")
        self.assert_told(run("table", of_example("whole.sheet"), changed), 2, "not the submission of")

    def test_a_sheet_without_digest_takes_any(self):
        self.assert_fine(run("table", WHOLE, of_example("first.txt"), "--every", "5000"))


class Broken(Case):
    """Files that are no sheets, given to each command that reads one."""

    def commands(self, path):
        yield ("table", path)
        yield ("table", path, SUBMISSION)
        yield ("picture", path, "-o", self.path("none.svg"))
        yield ("final", path)
        yield ("compare", path, WHOLE)
        yield ("compare", WHOLE, path)
        yield ("explain", SUBMISSION, path)
        yield ("record", "append", self.path("none"), path)

    def test_each(self):
        for head in ("", headed("")):
            for name, why, text in broken_sheets(head):
                path = self.written(text)
                for words in self.commands(path):
                    with self.subTest(f"{words[0]}: {name}"):
                        self.assert_told(run(*words), 2, path, why)
        self.assertEqual([name for name in self.files() if name.startswith("none")], [])

    def test_heads(self):
        body = sheet(example_rows(0, 3))
        digest = "submission sha256 " + "0" * 64
        for head, why in [
            (f"sheet 2 pozsmeteg 9.0\n{digest}\n", "line 1: a sheet of format 2, and this version reads format 1"),
            (f"sheet 1 pozsmeteg\n{digest}\n", "line 1: no head of a sheet: 'sheet 1 pozsmeteg'"), (f"sheet pozsmeteg 1\n{digest}\n", "line 1: no head"),
            ("sheet 1 pozsmeteg 0.1.0\n", "line 2: here should stand the digest"),
            (f"sheet 1 pozsmeteg 0.1.0\n{digest[:-1]}\n", "line 2: here should stand the digest"),
            (f"sheet 1 pozsmeteg 0.1.0\n{digest.upper()}\n", "line 2: here should stand the digest"),
            (f"{digest}\nsheet 1 pozsmeteg 0.1.0\n", "line 1: no sheet"), (f"sheet 1 pozsmeteg 0.1.0\n{digest}\n\n", "line 3: no sheet"),
        ]:
            with self.subTest(head):
                self.assert_told(run("final", self.written(head + body)), 2, why)
        self.assert_told(run("final", self.written("sheet 1 pozsmeteg 0.1.0\n")), 2, "line 2: here should stand the digest")

    def test_cut_anywhere(self):
        whole = headed(sheet(example_rows(0, 5)))
        self.assert_fine(run("final", self.written(whole)))
        for end in range(len(whole)):
            with self.subTest(end):
                self.assert_told(run("final", self.written(whole[:end], "cut")), 2, "cut: ")

    def test_foreign(self):
        for path in (SUBMISSION, os.path.join(os.path.dirname(SUBMISSION), "specs/Text.antt"), "/bin/sh"):
            if os.path.exists(path):
                self.assert_told(run("final", path), 2, path)


def broken_sheets(head):
    """Name, words of the message, text; line numbers are those behind the head lines."""
    first, rows = head.count("\n") + 1, example_rows(0, 30)

    def text(rows_, counts=None):
        return head + "\n".join([counts or f"kept {len(rows_)} final 0", *rows_]) + "\n"

    yield from broken_counts(head, first, rows, text)
    yield from broken_lines(first, rows, text)
    yield from broken_numbers(first, rows, text)


def broken_counts(head, first, rows, text):
    yield "a line feed alone", f"line {first}: no sheet", head + "\n"
    yield "a refusal", "the submission was refused: 'refused 2'", head + "refused 2\n"
    yield "more final than kept, of none", "5 final entries among 0 kept", head + "kept 0 final 5\n"
    yield "more final than kept", "4 final entries among 3 kept", text(rows[:3], "kept 3 final 4")
    yield "no entries", "announces 5561 entries, and there are 0", head + "kept 5561 final 5486\n"
    yield "an entry missing", "announces 4 entries, and there are 3", text(rows[:3], "kept 4 final 0")
    yield "a hole", "announces 30 entries, and there are 20", text(rows[:10] + rows[20:30], "kept 30 final 0")
    yield "an entry too many", "announces 3 entries, and there are 4", text(rows[:4], "kept 3 final 0")
    yield "an empty line at the end", "announces 3 entries, and there are 4", text(rows[:3] + [""], "kept 3 final 0")
    heads = ["kept 3", "kept 3 final", "final 0 kept 3", "kept 03 final 0", "kept +3 final 0", "kept 3 final -0", "kept 3  final 0", "kept 3 final 0 "]
    for words in (*heads, "Kept 3 final 0", "kept 3.0 final 0", "kept 9999999999 final 0"):
        yield f"the head '{words}'", f"line {first}: no sheet: here should stand", text(rows[:3], words)


def broken_lines(first, rows, text):
    yield "an empty line between entries", f"line {first + 2}: no entry", text([rows[0], "", rows[1]])
    yield "cut in its last line", "not whole: the last line has no end", text(rows[:3])[:-5]
    yield "cut before its last line feed", "not whole: the last line has no end", text(rows[:3])[:-1]
    yield "three words", f"line {first + 2}: no entry", text([rows[0], rows[1][:50]])
    yield "six words", f"line {first + 1}: no entry of four or five words", text([rows[0] + 2 * (" " + ZERO)])
    yield "five words, but not in all", f"line {first + 2}: no entry of five words, as the first has", text([f"{rows[0]} {ZERO}", rows[1]])
    yield "five words in one", f"line {first + 2}: no entry of four words, as the first has", text([rows[0], f"{rows[1]} {ZERO}"])
    yield "a word of 15 digits", f"line {first + 1}: no entry", text([rows[0][1:]])
    yield "lower case", f"line {first + 1}: no entry", text([rows[0].lower()])
    yield "two spaces", f"line {first + 1}: no entry", text([rows[0].replace(" ", "  ", 1)])
    yield "a tab", f"line {first + 1}: no entry", text([rows[0].replace(" ", "\t", 1)])
    yield "carriage returns", f"line {first}: no sheet", text(rows[:3], "kept 3 final 0\r")
    yield "a letter that is no ASCII", f"line {first}: a byte that is no ASCII", text(rows[:3], "k\u00e9pt 3 final 0")


def broken_numbers(first, rows, text):
    yield "an entry twice", f"line {first + 2}: no sheet: the time {number_of(rows[0][:16])!r} is not behind", text([rows[0], rows[0]])
    yield "entries exchanged", f"line {first + 2}: no sheet: the time", text([rows[1], rows[0]])
    yield "a time that is no number", f"line {first + 2}: no sheet: the time nan is not from 0", text([rows[0], NAN + rows[1][16:]])
    yield "a first time that is no number", f"line {first + 1}: no sheet: the time nan is not from 0", text([NAN + rows[0][16:]])
    yield "a time below zero", f"line {first + 1}: no sheet: the time -0.5 is not from 0", text([double(-0.5) + rows[0][16:]])
    yield "a time beyond the bound", f"line {first + 2}: no sheet: the time 1e+300 is not from 0", text([rows[0], double(1e300) + rows[1][16:]])
    yield "a value that is no number", f"line {first + 2}: no sheet: the detrended value nan", text([rows[0], f"{rows[1][:34]}{NAN}{rows[1][50:]}"])
    yield "an infinite value", f"line {first + 1}: no sheet: the passed value inf", text([rows[0][:51] + "7FF0000000000000"])
