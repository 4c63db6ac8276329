"""Each call accepted, and refused with every number that it can answer."""
import functools
import math
import operator
import pickle
import unittest
from array import array

import pozsmeteg as p

from .made import bits, field, made, orbit

NAN = math.nan
TABLES = p.legendre_new(2)
MODEL = p.Model(TABLES, field(), array("d", [0.0, 12000.0]), field(0.0, 0.0) + field(0.0, 0.0))
KEYS = array("q", range(2000))
STATES = p.Keyed(KEYS, orbit(KEYS, 0.0))
ARC = p.Arc(100.0, 800, 200.0, 1500.0)
TIMES = array("d", [2.0 * k for k in range(300)])
VALUES = array("d", [0.5 + 0.25 * (k % 5) for k in range(300)])


class Answered(unittest.TestCase):
    def refused(self, number, call, *given, at=None):
        """Refused by a number, with its words; where `at` is given, with that list and row."""
        with self.assertRaises(p.Refused) as caught:
            call(*given)
        refusal = caught.exception
        self.assertEqual((refusal.number, refusal.words), (number, p.WORDS[number]))
        self.assertIn(f"refused {number}: {p.WORDS[number]}", str(refusal))
        if at:
            self.assertEqual((refusal.list, refusal.row), at)

    def test_refusal_travels(self):
        """A refusal goes from one process to another as it is."""
        refusal = pickle.loads(pickle.dumps(p.Refused(4, list="acc_c", row=3)))
        self.assertEqual((refusal.number, refusal.words, refusal.list, refusal.row), (4, p.WORDS[4], "acc_c", 3))
        self.assertEqual(str(refusal), "refused 4: an input is not finite, or a time or key is outside its bound (acc_c, row 3)")

    def test_numbers(self):
        self.assertEqual(p.root(2.0).hex(), "0x1.6a09e667f3bcdp+0")
        self.assertEqual((p.sine(0.0), p.cosine(0.0), p.arctangent(0.0, 1.0), p.power(2.0, 10), p.power(2.0, 3, 5.0)), (0.0, 1.0, 0.0, 1024.0, 40.0))
        self.assertEqual(p.arctangent(1.0, 1.0).hex(), "0x1.921fb54442d18p-1")
        for none in (p.root(-1.0), p.sine(1e7), p.cosine(math.inf), p.arcsine(1.5)):
            self.assertTrue(math.isnan(none))
        self.assertEqual(p.arcsine(0.0), 0.0)

    def test_sizes(self):
        self.assertEqual([p.places(n) for n in (0, 2, 180, 181)], [1, 6, 16471, 0])
        self.assertEqual(p.fit_scratch(2, 2), 2 * 2 * 6 + 8 * 6 + 150_000)
        self.assertEqual(p.sheet_scratch(made()), 150_072 + 2 * 49_200 + 10 * 2950)
        self.assertEqual(p.path_scratch(2, 2, 0, 0), p.fit_scratch(2, 2))

    def test_tables(self):
        self.assertEqual((TABLES.degree, len(TABLES.a), len(TABLES.b), TABLES.a[1]), (2, 6, 6, p.root(3.0)))
        for degree in (1, 181, -1, 2**64 + 2):
            self.refused(1, p.legendre_new, degree, at=("degree", 0))

    def test_partials(self):
        found = p.partials(TABLES, field(), 6.9e6, 0.3, 1.0)
        self.assertTrue(5.7e7 < found.v < 5.8e7 and found.dr < 0.0)
        self.assertEqual(p.Prepared(TABLES, field()).partials(6.9e6, 0.3, 1.0), found)
        self.refused(1, p.partials, TABLES._replace(degree=1), field(), 6.9e6, 0.3, 1.0)
        self.refused(3, p.partials, TABLES, field()[1:], 6.9e6, 0.3, 1.0, at=("field", None))
        self.refused(4, p.partials, TABLES, field(NAN), 6.9e6, 0.3, 1.0, at=("field", 5))
        self.refused(4, p.partials, TABLES, field(), 6.9e6, math.inf, 1.0, at=("lat", 0))
        self.refused(10, p.partials, TABLES, field(), 0.0, 0.3, 1.0, at=(None, None))

    def test_prepared(self):
        self.refused(3, p.Prepared, TABLES, field()[1:], at=("field", None))
        self.refused(1, p.Prepared, TABLES._replace(degree=181), field())
        self.refused(4, p.Prepared(TABLES, field()).partials, 6.9e6, 0.3, NAN, at=("lon", 0))
        self.refused(10, p.Prepared(TABLES, field(NAN)).partials, 6.9e6, 0.3, 1.0)

    def test_fit(self):
        found = p.fit_orbit(MODEL, STATES, ARC)
        self.assertEqual(len(found.states), 6 * 801)
        self.assertTrue(0.0 <= found.rms < 100.0)
        few = p.Keyed(KEYS[101:], STATES.values[606:])
        rows = [
            (1, MODEL._replace(tables=TABLES._replace(degree=181)), STATES, ARC, ("degree", 0)), (2, MODEL, STATES, ARC._replace(steps=5303), ("steps", None)),
            (2, MODEL._replace(times=[0.0]), STATES, ARC, ("fields", None)), (3, MODEL, p.Keyed(KEYS, STATES.values[1:]), ARC, ("states", None)),
            (4, MODEL, STATES, ARC._replace(t0=NAN), ("t0", 0)), (4, MODEL, STATES, ARC._replace(node=-1.0), ("node", 0)),
            (4, MODEL, STATES, ARC._replace(period=NAN), ("period", 0)), (5, MODEL, p.Keyed([2, 1], STATES.values[:12]), ARC, ("states", 1)),
            (6, MODEL, STATES, ARC._replace(t0=11900.0), (None, None)), (7, MODEL, p.Keyed([], []), ARC, (None, None)), (8, MODEL, few, ARC, (None, None)),
            (9, MODEL, STATES, ARC._replace(steps=10), (None, None)), (10, MODEL, STATES, ARC._replace(period=0.0), (None, None))]
        for number, model, states, arc, at in rows:
            with self.subTest(number=number, at=at):
                self.refused(number, p.fit_orbit, model, states, arc, at=at)

    def test_residuals(self):
        keys = array("q", range(100))
        c, d, acc = p.Keyed(keys, orbit(keys, 0.0)), p.Keyed(keys, orbit(keys, 28.0)), p.Keyed(keys, bytes(800))
        pair, seen = p.Pair(c, d, acc, acc), p.Observations([1.0, 2.5, 3.0, 200.0], [0.0] * 4, b"\1\1\0\1")
        found = p.residuals(MODEL, pair, seen)
        self.assertEqual([epoch.t for epoch in found], [1.0, 2.5])
        self.assertEqual([len(found[1].terms), len(found[1].mid), len(found[1].vel)], [5, 3, 3])
        self.assertEqual(found[0].residual, 0.0 - functools.reduce(operator.add, found[0].terms, 0.0))
        self.assertAlmostEqual(found[0].mid[0], (c.values[6] + d.values[6]) * 0.5)
        self.refused(1, p.residuals, MODEL._replace(tables=TABLES._replace(degree=0)), pair, seen)
        self.refused(2, p.residuals, MODEL, pair, seen._replace(times=bytes(800_008)), at=("observations", None))
        self.refused(3, p.residuals, MODEL, pair, seen._replace(good=b"\1\1\1"), at=("observations", None))
        self.refused(4, p.residuals, MODEL, pair, seen._replace(values=[0.0, 0.0, 0.0, NAN]), at=("observations", 3))
        self.refused(5, p.residuals, MODEL, pair, seen._replace(times=[1.0, 3.0, 2.5, 200.0]), at=("observations", 2))
        self.refused(10, p.residuals, MODEL, pair._replace(d=c), seen, at=(None, None))

    def test_revolutions(self):
        self.assertEqual(p.revolutions(TIMES, [0.0, 100.0, 598.0]), [p.Revolution(0, 50, 0.0, 100.0), p.Revolution(50, 299, 100.0, 498.0)])
        self.assertEqual((p.revolutions(TIMES, []), p.revolutions([], [1.0])), ([], []))
        self.refused(2, p.revolutions, bytes(800_008), [], at=("times", None))
        self.refused(2, p.revolutions, TIMES, range(65), at=("nodes", None))
        self.refused(4, p.revolutions, [*TIMES[:7], NAN], [], at=("times", 7))
        self.refused(4, p.revolutions, TIMES, [0.0, 2.0**31 + 1.0], at=("nodes", 1))
        self.refused(5, p.revolutions, [1.0, 1.0], [], at=("times", 1))

    def test_detrend(self):
        revolution = p.Revolution(0, 300, 0.0, 600.0)
        out = p.detrend(TIMES, VALUES, [revolution])
        self.assertTrue(abs(math.fsum(out)) < 1e-9 < max(out))
        self.assertEqual(bits(p.detrend(TIMES, VALUES, [])), bits(VALUES))
        self.refused(2, p.detrend, TIMES, VALUES, [revolution._replace(end=301)], at=("revolutions", None))
        self.refused(2, p.detrend, TIMES, VALUES, [revolution] * 64, at=("revolutions", None))
        self.refused(2, p.detrend, TIMES, VALUES, [revolution._replace(first=-1)], at=("revolutions", None))
        self.refused(3, p.detrend, TIMES, VALUES[1:], [], at=("values", None))
        self.refused(4, p.detrend, TIMES, VALUES, [revolution._replace(period=NAN)], at=("revolutions", 0))
        self.refused(5, p.detrend, TIMES, VALUES, [revolution] * 2, at=("revolutions", 1))
        self.refused(10, p.detrend, TIMES, VALUES, [revolution._replace(period=0.0)], at=(None, None))

    def test_band_pass(self):
        self.assertTrue(any(p.band_pass(TIMES, VALUES)))
        self.assertEqual(bits(p.band_pass(TIMES[:64], VALUES[:64])), bytes(8 * 64))
        self.refused(2, p.band_pass, bytes(800_008), bytes(800_008), at=("times", None))
        self.refused(3, p.band_pass, TIMES, VALUES[1:], at=("x", None))
        self.refused(4, p.band_pass, TIMES[:3], [0.0, NAN, 0.0], at=("x", 1))
        self.refused(4, p.band_pass, [-5e-324], [0.0], at=("times", 0))
        self.refused(5, p.band_pass, [2.0, 4.0, 3.0], [0.0] * 3, at=("times", 2))
        self.refused(10, p.band_pass, TIMES, [1.7e308] * 300, at=(None, None))

    def test_finality(self):
        ends = [0, 16804]
        reach, kept = p.Reach([10000.0, 15000.0], ends, ends, ends, ends, [0.0, 16804.0], [0.0, 16804.0]), [1.0, 2.0, 14998.0]
        self.assertEqual((p.horizon_of(reach), p.final_count_of(reach, kept)), (15000.0, 2))
        self.assertEqual(p.horizon_of(reach._replace(d_acc=[16803])), 10000.0)
        self.assertEqual((p.horizon_of(reach._replace(c=[])), p.final_count_of(reach._replace(c=[]), kept)), (None, 0))
        for call in (p.horizon_of, lambda r: p.final_count_of(r, kept)):
            self.refused(2, call, reach._replace(fields=range(33)), at=("fields", None))
            self.refused(2, call, reach._replace(c=bytes(1_600_008)), at=("states_c", None))
            self.refused(4, call, reach._replace(d_acc=[0, 2**31 + 1]), at=("acc_d", 1))
            self.refused(4, call, reach._replace(observed=[0.0, math.inf]), at=("observations", 1))
            self.refused(5, call, reach._replace(nodes=[15000.0, 10000.0]), at=("nodes", 1))
        self.refused(2, p.final_count_of, reach, bytes(800_008), at=("kept", None))
        self.refused(4, p.final_count_of, reach, [NAN], at=("kept", 0))
        self.refused(5, p.final_count_of, reach, [1.0, 2.0, 2.0], at=("kept", 2))
        self.assertEqual((list(p.final_entries(kept, 2)), list(p.final_entries(kept, 4))), ([1.0, 2.0], []))


if __name__ == "__main__":
    unittest.main()
