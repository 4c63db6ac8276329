"""The whole path: the bundled example bit for bit, and list and row of whatever is spoiled in a submission."""
import math
import os
import struct
import unittest
from array import array

import pozsmeteg as p

from .made import EXAMPLE, ROOT, bits, example, field, made

NAN, LATEST = math.nan, 2**31
KEYED = {"states_c": 6, "acc_c": 1, "states_d": 6, "acc_d": 1}


def text_of(sheet):
    """A sheet as the sheet program prints it."""
    rows = (" ".join(struct.pack(">d", x).hex().upper() for x in row) for row in zip(*sheet[:4]))
    return "".join(line + "\n" for line in [f"kept {len(sheet.times)} final {sheet.final}", *rows])


class Example(unittest.TestCase):
    @classmethod
    def setUpClass(cls):
        cls.submission = example()
        cls.sheet = p.sheet(cls.submission)

    def test_bit_for_bit(self):
        with open(os.path.join(EXAMPLE, "stdout"), encoding="ascii") as file:
            self.assertEqual(text_of(self.sheet), file.read())

    def test_first_delivery(self):
        """The measurements up to a second; final entries of this sheet are those of the whole."""
        s, cut = self.submission, 695320200
        kept = lambda keyed, width: p.Keyed(keyed.keys[: upto(keyed.keys, cut)], keyed.values[: width * upto(keyed.keys, cut)])
        m = upto(s.obs_times, cut)
        first = p.sheet(p.Submission(
            s.degree, s.static, s.field_times, s.added, kept(s.states_c, 6), kept(s.acc_c, 1), kept(s.states_d, 6), kept(s.acc_d, 1), s.nodes,
            s.obs_times[:m], s.obs_values[:m], s.good[:m]))
        with open(os.path.join(ROOT, "examples/first.sheet"), encoding="ascii") as file:
            self.assertEqual(text_of(first), file.read())
        self.assertEqual([bits(list[: first.final]) for list in first[:4]], [bits(list[: first.final]) for list in self.sheet[:4]])

    def test_other_buffers(self):
        """The same lists as bytes, tuples and rows."""
        s = self.submission
        rows = memoryview(s.states_c.values).cast("B").cast("d", (len(s.states_c.keys), 6))
        other = p.Submission(
            s.degree, tuple(s.static), bytes(s.field_times), memoryview(s.added), (memoryview(s.states_c.keys), rows), s.acc_c,
            (list(s.states_d.keys), bytes(s.states_d.values)), s.acc_d, list(s.nodes), s.obs_times, s.obs_values, list(s.good))
        self.assertEqual(p.sheet(other, p.legendre_new(4)), self.sheet)
        self.assertEqual(p.sheet_scratch(other), p.sheet_scratch(s))
        self.assertEqual(p.explain(other, self.sheet), p.explain(s, self.sheet))

    def test_finality(self):
        self.assertEqual((p.horizon(self.submission), p.final_count(self.submission, self.sheet.times)), (self.submission.nodes[3], self.sheet.final))

    def test_tables_of_another_degree(self):
        with self.assertRaisesRegex(TypeError, "tables: those of degree 4 were wanted, not of 5"):
            p.sheet(self.submission, p.legendre_new(5))


def upto(times, cut):
    return next((i for i, t in enumerate(times) if t > cut), len(times))


class Spoiled(unittest.TestCase):
    """A good submission, one thing spoiled, and where it must be told."""

    def told(self, number, name, row, **spoiled):
        submission = made()
        for key, value in spoiled.items():
            setattr(submission, key, value)
        with self.assertRaises(p.Refused) as caught:
            p.sheet(submission)
        refusal = caught.exception
        self.assertEqual((refusal.number, refusal.list, refusal.row), (number, name, row))

    def test_accepted(self):
        sheet = p.sheet(made())
        self.assertEqual((len(sheet.times), sheet.final, [len(list) for list in sheet[:4]]), (550, 199, [550] * 4))
        self.assertTrue(any(sheet.passed) and bits(sheet.raws) != bits(sheet.detrended))

    def test_degree(self):
        for degree in (1, 181, -1):
            self.told(1, "degree", 0, degree=degree)

    def test_static(self):
        self.told(3, "static", None, static=field()[1:])
        self.told(4, "static", 0, static=field(NAN))
        self.told(3, "static", None, degree=3)

    def test_fields(self):
        still = field(0.0, 0.0)
        self.told(2, "fields", None, field_times=[0.0], added=still)
        self.told(2, "fields", None, field_times=range(33), added=still * 33)
        self.told(3, "fields", None, added=still + still[1:])
        self.told(4, "fields", 1, added=still + field(math.inf, 0.0))
        self.told(4, "fields", 0, field_times=[-1.0, 12000.0])
        self.told(4, "fields", 1, field_times=[0.0, LATEST + 1.0])
        self.told(5, "fields", 1, field_times=[12000.0, 12000.0])

    def test_keyed(self):
        for name, width in KEYED.items():
            keys, values = (array(list.typecode, list) for list in getattr(made(), name))
            many = p.Keyed(array("q", range(200_001)), bytes(8 * width * 200_001))
            spoiled = [
                (2, None, many), (3, None, p.Keyed(keys, values[1:])), (3, None, p.Keyed(keys[1:], values)),
                (4, 0, p.Keyed(changed(keys, 0, -1), values)), (4, len(keys) - 1, p.Keyed(changed(keys, -1, LATEST + 1), values)),
                (4, 7, p.Keyed(keys, changed(values, 7 * width + width // 2, NAN))), (4, 9, p.Keyed(keys, changed(values, 9 * width, -math.inf))),
                (5, 5, p.Keyed(changed(keys, 5, keys[4]), values)), (5, 6, p.Keyed(changed(keys, 5, keys[6]), values))]
            for number, row, keyed in spoiled:
                with self.subTest(name=name, number=number, row=row):
                    self.told(number, name, row, **{name: keyed})

    def test_nodes(self):
        self.told(2, "nodes", None, nodes=range(65))
        self.told(4, "nodes", 1, nodes=[1900.5, NAN])
        self.told(4, "nodes", 0, nodes=[-5e-324, 1.0])
        self.told(4, "nodes", 2, nodes=[-0.0, float(LATEST), LATEST + 1.0])
        self.told(5, "nodes", 2, nodes=[1.0, 2.0, 2.0])

    def test_observations(self):
        s = made()
        self.told(2, "observations", None, obs_times=range(100_001), obs_values=bytes(800_008), good=bytes(100_001))
        self.told(3, "observations", None, obs_values=s.obs_values[1:])
        self.told(3, "observations", None, good=s.good + b"\1")
        self.told(4, "observations", 3, obs_times=changed(s.obs_times, 3, NAN))
        self.told(4, "observations", 11, obs_values=changed(s.obs_values, 11, math.inf))
        self.told(5, "observations", 8, obs_times=changed(s.obs_times, 8, s.obs_times[7]))

    def test_bounds(self):
        """Every count at its bound is taken, and one more is refused; windows of 10,000 s are skipped, so that nothing is fitted."""
        still, many, l = array("d", bytes(8 * (2 + 2 * p.places(180)))), array("q", range(200_000)), 100_000
        states, values = p.Keyed(many, bytes(8 * 6 * 200_000)), p.Keyed(many, bytes(8 * 200_000))
        full = {
            "degree": 180, "static": still, "field_times": range(32), "added": still * 32, "states_c": states, "acc_c": values, "states_d": states,
            "acc_d": values, "nodes": range(0, 640_000, 10_000), "obs_times": range(l), "obs_values": bytes(8 * l), "good": bytes(l)}
        sheet = p.sheet(p.Submission(**full))
        self.assertEqual((len(sheet.times), sheet.final), (0, 0))
        self.told(2, "nodes", None, **{**full, "nodes": range(65)})

    def test_lowest_number_decides(self):
        """Of several faults the lowest number is answered, and of one number the list that the engine tests first is told."""
        s = made()
        self.told(3, "acc_d", None, nodes=[2.0, 1.0], static=field(NAN), acc_d=p.Keyed(s.acc_d.keys, []))
        self.told(4, "states_d", 0, nodes=[NAN], acc_c=p.Keyed(changed(s.acc_c.keys, 0, -1), s.acc_c.values),
                  states_d=p.Keyed(changed(s.states_d.keys, 0, -1), s.states_d.values))

    def test_not_finite(self):
        self.told(10, None, None, obs_values=[1.7e308] * 2950)

    def test_wrong_types(self):
        submission = made()
        submission.states_c = p.Keyed(array("d", submission.states_c.keys), submission.states_c.values)
        with self.assertRaisesRegex(TypeError, "states_c.keys: whole seconds .* were wanted, not 'd'"):
            p.sheet(submission)

    def test_horizon(self):
        submission = made()
        submission.acc_c = p.Keyed(changed(submission.acc_c.keys, 4, 0), submission.acc_c.values)
        for call in (p.horizon, lambda s: p.final_count(s, [])):
            with self.assertRaises(p.Refused) as caught:
                call(submission)
            self.assertEqual((caught.exception.number, caught.exception.list, caught.exception.row), (5, "acc_c", 4))


def changed(numbers, at, value):
    out = numbers[:]
    out[at] = value
    return out


if __name__ == "__main__":
    unittest.main()
