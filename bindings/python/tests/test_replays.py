"""The replay lists that the Rust source's answers stand in (oracle/README.md): the rows that are calls of this module, bit for bit."""
import os
import struct
import unittest
from array import array

import pozsmeteg as p
from pozsmeteg.explanation import NOT_FINITE, arc_of, window_of

from .made import ROOT, bits

SEVEN_NANS = struct.pack("<Q", 0x7FF8000000000000)


class Words:
    """A list of words, read one after another."""

    def __init__(self, path):
        with open(path, "rb") as file:
            self.words = [int(line, 16) for line in file]
        self.at = 0

    def left(self):
        return self.at < len(self.words)

    def number(self):
        self.at += 1
        return self.words[self.at - 1]

    def take(self, count):
        self.at += count
        return self.words[self.at - count : self.at]

    def doubles(self, count):
        return array("d", struct.pack(f"{count}Q", *self.take(count)))

    def double(self):
        return self.doubles(1)[0]

    def full(self, code="d"):
        """A list: its length, and its numbers."""
        count = self.number()
        return array(code, struct.pack(f"{count}Q", *self.take(count)))

    def sparse(self, code="d"):
        """A list: its length, how many numbers are given, and these; the others are 0, as far as the list goes."""
        count, given = self.number(), self.number()
        numbers = array(code, struct.pack(f"{given}Q", *self.take(given)))
        return numbers[:count] + array(code, bytes(8 * max(0, count - given)))


class Replay:
    """One list; a subclass names it and has a method for each call number, which consumes its words and answers whether it compared."""

    name = None
    least = {}

    def test_list(self):
        folder = os.path.join(ROOT, "crates", "replay_" + self.name)
        self.asked, self.told = Words(os.path.join(folder, "stdin")), Words(os.path.join(folder, "stdout"))
        compared = {}
        while self.asked.left():
            number = self.asked.number()
            compared[number] = compared.get(number, 0) + bool(self.calls()[number]())
        self.assertFalse(self.told.left())
        for number, least in self.least.items():
            self.assertGreaterEqual(compared[number], least, f"calls {number} that were compared")

    def answered(self, call, *given):
        """What a call answers, and the number of its refusal or 0."""
        try:
            return call(*given), 0
        except p.Refused as refusal:
            return None, refusal.number

    def some(self, length, between):
        """Every so many numbers of a list that was told."""
        return self.told.doubles(-(-length // (between + 1)))

    def same(self, numbers, expected):
        self.assertEqual(bits(numbers), bits(expected))


def same_number(x):
    """A double's bits, any NaN as one."""
    return SEVEN_NANS if x != x else bits([x])


class Numbers(Replay, unittest.TestCase):
    name = "numbers"
    least = {0: 100, 1: 500, 2: 500, 4: 1000, 5: 100, 6: 100}

    def calls(self):
        one = {0: (p.root,), 1: (p.sine,), 2: (p.cosine,), 3: (p.sine, p.cosine), 5: (p.arcsine,)}
        return {**{k: lambda calls=calls: self.of_one(calls) for k, calls in one.items()}, 4: self.arctangent, 6: self.power, 7: self.finite}

    def told_one(self, x):
        self.assertEqual(same_number(x), same_number(self.told.double()))
        return True

    def of_one(self, calls):
        x = self.asked.double()
        return [self.told_one(call(x)) for call in calls]

    def arctangent(self):
        return self.told_one(p.arctangent(*self.asked.doubles(2)))

    def power(self):
        a, n, c = self.asked.double(), self.asked.number(), self.asked.double()
        return self.told_one(p.power(a, n, c))

    def finite(self):
        self.asked.take(1)
        self.told.take(1)


class Horizon(Replay, unittest.TestCase):
    name = "horizon"
    least = {0: 187, 1: 100}

    def calls(self):
        return {0: self.final, 1: self.arc}

    def final(self):
        asked = self.asked
        reach = p.Reach(asked.full(), *[asked.full("q") for _ in range(4)], asked.full(), asked.full())
        kept = asked.full()
        z, refusal = self.answered(p.horizon_of, reach)
        self.assertEqual(self.told.number(), refusal)
        if not refusal:
            self.assertEqual(z, self.told.double() if self.told.number() else None)
        count, refusal = self.answered(p.final_count_of, reach, kept)
        self.assertEqual(self.told.number(), refusal)
        if not refusal:
            self.assertEqual(count, self.told.number())
        return True

    def arc(self):
        """The arc of a window; what is no window has no steps."""
        a, b = self.asked.doubles(2)
        t0, steps, node, period = self.told.double(), self.told.number(), *self.told.doubles(2)
        if not (0.0 <= a < b <= 2.0**31 and b - a < 7000.0):
            self.assertEqual(steps, 0)
            return False
        arc = arc_of(a, b)
        self.same([arc.t0, arc.steps, arc.node, arc.period], [t0, steps, node, period])
        return True


class Filter(Replay, unittest.TestCase):
    name = "filter"
    least = {3: 40}

    def calls(self):
        return {0: self.band, 1: self.run_sections, 2: self.filtfilt, 3: self.band_pass}

    def band(self):
        self.asked.take(3)
        self.told.take(21)

    def run_sections(self):
        self.asked.sparse()
        given = self.asked.take(2)[1]
        self.asked.take(given + 1)
        self.told.take(1 + given + 1)

    def outputs(self, places):
        """The refusal's number and the output after acceptance; behind them what was left in the scratch, and in a refused output."""
        refusal = self.told.number()
        out = None if refusal else self.told.doubles(places)
        self.told.take(2 if refusal else 1)
        return refusal, out

    def filtfilt(self):
        self.asked.sparse(), self.asked.sparse()
        self.outputs(self.asked.take(3)[1])

    def band_pass(self):
        times, x = self.asked.sparse(), self.asked.sparse()
        places, room = self.asked.take(2)
        refusal, expected = self.outputs(places)
        if places != len(times) and refusal == 3 or room < 8 * len(times):
            return False
        found, number = self.answered(p.band_pass, times, x)
        self.assertEqual(number, refusal)
        if not refusal:
            self.same(found, expected)
        return True


class Detrend(Replay, unittest.TestCase):
    name = "detrend"
    least = {0: 40, 1: 40, 2: 20}

    def calls(self):
        return {0: self.revolutions, 1: self.detrend, 2: self.remove, 3: self.ascending}

    def revolutions(self):
        times, nodes, lengths = self.asked.sparse(), self.asked.sparse(), self.asked.take(4)
        refusal, count = self.told.take(2)
        firsts, ends = self.told.take(lengths[0]), self.told.take(lengths[1])
        starts, periods = self.told.doubles(lengths[2]), self.told.doubles(lengths[3])
        if refusal == 3:
            return False
        found, number = self.answered(p.revolutions, times, nodes)
        self.assertEqual(number, refusal)
        if not refusal:
            self.assertEqual(found, [p.Revolution(*row) for row in zip(firsts, ends, starts, periods)][:count])
        return True

    def detrend(self):
        times, values = self.asked.sparse(), self.asked.sparse()
        lists = self.asked.sparse("Q"), self.asked.sparse("Q"), self.asked.sparse(), self.asked.sparse()
        room, refusal = self.asked.number(), self.told.number()
        expected = self.told.doubles(len(values))
        self.told.take(1)
        if len({len(list) for list in lists}) > 1 or room < 8 * len(times):
            return False
        found, number = self.answered(p.detrend, times, values, [p.Revolution(*row) for row in zip(*lists)])
        self.assertEqual(number, refusal)
        if not refusal:
            self.same(found, expected)
        return True

    def remove(self):
        """The kernel of both: n times, n values."""
        n, given = self.asked.take(2)
        work, nodes, room = self.asked.doubles(given), self.asked.sparse(), self.asked.number()
        if n > room // 2:
            return False
        expected = self.told.doubles(2 * n)
        if given < 2 * n or room < 8 * n:
            return False
        times, values = work[:n], work[n : 2 * n]
        found, number = self.answered(lambda: p.detrend(times, values, p.revolutions(times, nodes)))
        if number:
            return False
        self.same(times + found, expected)
        return True

    def ascending(self):
        self.asked.sparse(), self.asked.sparse()
        self.told.take(2 + self.asked.number())


class Fields(Replay, unittest.TestCase):
    name = "fields"
    least = {2: 5, 6: 5}

    def calls(self):
        return {0: self.index, 1: self.acceleration, 2: self.tables, 3: self.rescaled, 4: self.derive, 5: self.compute, 6: self.partials}

    def index(self):
        self.asked.take(2)
        self.told.take(0 if self.told.number() else 1)

    def acceleration(self):
        self.asked.take(6)
        self.told.take(0 if self.told.number() else 3)

    def tables(self):
        degree, a, b, room, between = self.asked.take(5)
        refusal, told_a, told_b = self.told.number(), self.some(a, between), self.some(b, between)
        self.told.take(1)
        if {a, b} != {p.places(degree)} and refusal == 3 or room < 8 * p.places(degree):
            return False
        found, number = self.answered(p.legendre_new, degree)
        self.assertEqual(number, refusal)
        if not refusal:
            self.same(found.a[:: between + 1], told_a)
            self.same(found.b[:: between + 1], told_b)
        return True

    def rescaled(self):
        self.asked.number(), self.asked.full()
        lengths = self.asked.take(5)
        self.told.take(1 + lengths[0] + lengths[1] + 1)

    def derive(self):
        self.asked.number(), self.asked.full()
        self.told.take(1 + self.asked.take(2)[0] + 1)

    def compute(self):
        self.asked.take(4)
        p_length, d_length, _, _, between = self.asked.take(5)
        self.told.number(), self.some(p_length, between), self.some(d_length, between), self.told.number()

    def partials(self):
        degree, field = self.asked.number(), self.asked.full()
        a, b, first, room, count = *self.asked.take(2), self.asked.double(), *self.asked.take(2)
        places = [self.asked.doubles(3) for _ in range(count)]
        answers = [self.partials_told() for _ in range(count)]
        if {a, b} != {p.places(degree)} or room < 8 * p.places(degree):
            return False
        tables = p.legendre_new(degree) if 2 <= degree <= 180 else p.Tables(degree, array("d", bytes(8 * a)), array("d", bytes(8 * b)))
        tables.a[:1] = array("d", [first])
        for place, (refusal, expected) in zip(places, answers):
            found, number = self.answered(p.partials, tables, field, *place)
            self.assertEqual(number, refusal)
            if not refusal:
                self.same(found, expected)
        return True

    def partials_told(self):
        refusal = self.told.number()
        expected = None if refusal else self.told.doubles(4)
        self.told.take(1)
        return refusal, expected


class Residuals(Replay, unittest.TestCase):
    name = "residuals"
    least = {0: 300, 1: 50}

    def calls(self):
        return {0: self.epoch, 1: self.epochs}

    def lists(self):
        """A model, a pair and the length of the scratch."""
        asked, degree = self.asked, self.asked.number()
        field, a, b, times, added = (asked.full() for _ in range(5))
        c, d, c_acc, d_acc = (p.Keyed(asked.full("q"), asked.full()) for _ in range(4))
        return p.Model(p.Tables(degree, a, b), field, times, added), p.Pair(c, d, c_acc, d_acc), asked.number()

    def found(self, refusal, model, pair, seen):
        """The five flat lists of what is kept."""
        records, number = self.answered(p.residuals, model, pair, p.Observations(*seen))
        self.assertEqual(number, refusal)
        return [] if refusal else [x for r in records for x in r[:2]] + [x for k in (2, 3, 4) for r in records for x in r[k]]

    def epoch(self):
        """One epoch is the list of one observation."""
        model, pair, room = self.lists()
        seen = [self.asked.double()], [self.asked.double()], [self.asked.number()]
        refusal, kept = self.told.take(2)
        record = self.told.doubles(13)
        self.told.take(1)
        if room < p.fit_scratch(model.tables.degree, len(model.times)):
            return False
        self.same(self.found(refusal, model, pair, seen), record if kept else [])
        return True

    def epochs(self):
        model, pair, room = self.lists()
        seen = self.asked.full(), self.asked.full(), bytes(list(self.asked.full("Q")))
        lengths = self.asked.take(5)
        refusal, count = self.told.take(2)
        columns = [self.told.doubles(width * n)[: width * count] for width, n in zip((1, 1, 5, 3, 3), lengths)]
        self.told.take(1)
        if set(lengths) != {len(seen[0])} or room < p.residuals_scratch(model.tables.degree, len(model.times), len(seen[0])):
            return False
        expected = [x for row in zip(*columns[:2]) for x in row] + [x for column in columns[2:] for x in column]
        self.same(self.found(refusal, model, pair, seen), expected if not refusal else [])
        return True


class Orbits(Replay, unittest.TestCase):
    """Single fits, and the windows that `explain` fits beside those of the source's fitted_orbits: as many, with the same rms."""

    name = "orbits"
    least = {1: 150, 2: 36}

    def calls(self):
        return {0: self.least_squares, 1: self.fit, 2: self.windows}

    def least_squares(self):
        self.asked.sparse(), self.asked.sparse()
        _, columns, rows, between = self.asked.take(4)
        self.told.take(3 + columns + 2)
        self.some(rows, between)

    def lists(self):
        asked, degree = self.asked, self.asked.number()
        field, a, b, times, added = (asked.sparse() for _ in range(5))
        return p.Model(p.Tables(degree, a, b), field, times, added), p.Keyed(asked.sparse("q"), asked.sparse())

    def fit(self):
        model, states = self.lists()
        arc = p.Arc(self.asked.double(), self.asked.number(), *self.asked.doubles(2))
        places, room, between = self.asked.take(3)
        refusal = self.told.number()
        rms = None if refusal else self.told.double()
        self.told.take(2)
        some = self.some(places, between)
        self.told.take(1)
        if places != 6 * (arc.steps + 1) and refusal == 3 or room < p.fit_scratch(model.tables.degree, len(model.times)):
            return False
        found, number = self.answered(p.fit_orbit, model, states, arc)
        self.assertEqual(number, refusal)
        if not refusal:
            self.same([found.rms, *found.states[:: between + 1]], [rms, *some])
        return True

    def windows(self):
        model, states = self.lists()
        nodes = self.asked.sparse()
        keys, numbers, count, _, some_keys, some_states = self.asked.take(6)
        refusal = self.told.number()
        fitted = 0 if refusal else self.told.take(2)[1]
        for length, between in ((keys, some_keys), (numbers, some_states)):
            self.told.take(3)
            self.some(length, between)
        self.told.take(3)
        expected = self.told.doubles(count)[:fitted]
        self.told.take(1)
        if refusal not in (0, 10):
            return False
        found = [window_of(model, states, k, nodes[k], nodes[k + 1], "C") for k in range(len(nodes) - 1)]
        if refusal:
            self.assertIn(NOT_FINITE, [w.outcome for w in found])
        else:
            self.same([w.rms for w in found if w.fitted()], expected)
        return True


class SheetList(Replay, unittest.TestCase):
    """The whole path. Where a list is at fault it is told which, and each accepted submission is explained."""

    name = "sheet"
    least = {0: 100}

    def calls(self):
        return {0: self.sheet}

    def lists(self):
        """A submission and its tables."""
        asked, degree = self.asked, self.asked.number()
        static, a, b, times, added = (asked.sparse() for _ in range(5))
        keys = [asked.sparse("q") for _ in range(4)]
        values = [asked.sparse() for _ in range(4)]
        nodes, seen, observed = (asked.sparse() for _ in range(3))
        good = bytearray(list(asked.sparse("Q")))
        c, d, c_acc, d_acc = (p.Keyed(*row) for row in zip(keys, values))
        return p.Submission(degree, static, times, added, c, c_acc, d, d_acc, nodes, seen, observed, good), p.Tables(degree, a, b)

    def expected(self, lengths):
        refusal, kept, final = self.told.take(3)
        columns = []
        for length in lengths:
            columns.append(self.told.doubles(min(kept, length)))
            self.told.take(1)
        self.told.take(1)
        return refusal, final, columns

    def sheet(self):
        submission, tables = self.lists()
        *lengths, room = self.asked.take(5)
        refusal, final, columns = self.expected(lengths)
        m = len(submission.obs_times)
        if refusal == 3 and (set(lengths) != {m} or room < p.sheet_scratch(submission)):
            return False
        found, number = self.answered(p.sheet, submission, tables)
        self.assertEqual(number, refusal)
        if refusal:
            self.located(submission, tables, refusal)
        else:
            self.assertEqual(found.final, final)
            self.assertEqual([bits(list) for list in found[:4]], [bits(list) for list in columns])
            self.explained(submission, tables, found)
        return True

    def located(self, submission, tables, refusal):
        """A list is told of each refusal but 10; of 3 and 4 none where the tables are at fault, which are no list of a submission."""
        with self.assertRaises(p.Refused) as caught:
            p.sheet(submission, tables)
        fine = refusal in (1, 2, 5) or refusal < 10 and bits(tables.a + tables.b) == bits(sum(p.legendre_new(submission.degree)[1:], array("d")))
        self.assertTrue(caught.exception.list is not None or not fine, refusal)

    def explained(self, submission, tables, found):
        """Kept and dropped add up; `explain` raises where its kept epochs are not the sheet's. It makes tables of its own."""
        if bits(tables.a + tables.b) == bits(sum(p.legendre_new(submission.degree)[1:], array("d"))):
            told = p.explain(submission, found)
            self.assertEqual(told.kept + sum(d.count for d in told.dropped), told.observations)
            self.assertEqual(sum(run.length for run in told.runs if run.final), found.final)


if __name__ == "__main__":
    unittest.main()
