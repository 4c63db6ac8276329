"""Buffers of every kind: lent or copied, refused with what was wanted, never written to."""
import concurrent.futures
import ctypes
import unittest
from array import array

import pozsmeteg as p
from pozsmeteg.buffers import BYTES, DOUBLES, KEYS, address_of, lend

from .made import bits

TIMES = array("d", [2.0 * k for k in range(100)])
VALUES = array("d", [float(k % 7) for k in range(100)])
ANSWER = p.band_pass(TIMES, VALUES)


class Taken(unittest.TestCase):
    """Each kind of buffer gives the same answer."""

    def same(self, times, values):
        self.assertEqual(bits(p.band_pass(times, values)), bits(ANSWER))

    def test_contiguous(self):
        self.assertTrue(any(ANSWER))
        self.same(TIMES, VALUES)
        self.same(memoryview(TIMES), memoryview(VALUES))
        self.same(TIMES.tobytes(), bytearray(VALUES.tobytes()))
        self.same(memoryview(TIMES).toreadonly(), memoryview(VALUES.tobytes()))

    def test_lists(self):
        self.same(list(TIMES), tuple(VALUES))
        self.same([int(t) for t in TIMES], [int(v) for v in VALUES])

    def test_not_contiguous(self):
        apart = array("d", [x for t in TIMES for x in (t, -1.0)])
        self.same(memoryview(apart)[::2], VALUES)

    def test_not_aligned(self):
        self.same(memoryview(b"1" + TIMES.tobytes())[1:], memoryview(b"123" + VALUES.tobytes())[3:])

    def test_of_ctypes(self):
        self.same((ctypes.c_double * 100)(*TIMES), VALUES)

    def test_numpy(self):
        try:
            import numpy
        except ImportError:
            self.skipTest("NumPy is not there")
        self.same(numpy.array(TIMES), numpy.array([VALUES, VALUES]).T[:, 0])
        with self.assertRaisesRegex(TypeError, "doubles"):
            p.band_pass(numpy.array(TIMES, "float32"), VALUES)

    def test_empty(self):
        for nothing in (array("d"), [], (), b"", memoryview(b""), bytearray()):
            self.assertEqual(list(p.band_pass(nothing, nothing)), [])

    def test_rows(self):
        """States may have a row for each key."""
        states = array("d", range(12))
        rows = memoryview(states).cast("B").cast("d", (2, 6))
        self.assertEqual(list(lend("states", rows, DOUBLES, 6).numbers), list(states))
        with self.assertRaisesRegex(TypeError, r"one dimension, or rows of 6 numbers was wanted, not the shape \(4, 3\)"):
            lend("states", memoryview(states).cast("B").cast("d", (4, 3)), DOUBLES, 6)
        with self.assertRaisesRegex(TypeError, "one dimension was wanted"):
            p.band_pass(rows, states)


def address(lent):
    return lent.pointer(lent.held())[0]


class Lent(unittest.TestCase):
    """What has the right form is lent, and nothing else."""

    def test_without_a_copy(self):
        for given, kind in ((TIMES, DOUBLES), (TIMES.tobytes(), DOUBLES), (memoryview(TIMES)[5:], DOUBLES), (array("q", [1]), KEYS),
                            (array("l", [1]), KEYS), (bytearray(b"11"), BYTES), (b"11", BYTES), (memoryview(TIMES).toreadonly(), DOUBLES)):
            self.assertEqual(address(lend("x", given, kind)), address_of(memoryview(given)))

    def test_with_a_copy(self):
        odd = memoryview(b"1" + TIMES.tobytes())[1:]
        for given in (memoryview(TIMES)[::2], odd):
            place = address(lend("x", given))
            self.assertNotIn(place, range(address_of(memoryview(TIMES)), address_of(memoryview(TIMES)) + 800))
            self.assertEqual(place % 8, 0)
        self.assertEqual(list(lend("x", odd).numbers), list(TIMES))

    def test_empty_is_not_null(self):
        self.assertNotEqual(address(lend("x", array("d"))) or 0, 0)

    def test_nothing_is_written(self):
        times, values = TIMES[:], array("d", [float(k) for k in range(100)])
        before = times.tobytes(), values.tobytes()
        out = p.detrend(times, values, [p.Revolution(0, 100, 0.0, 200.0)])
        p.band_pass(times, values)
        self.assertEqual((times.tobytes(), values.tobytes()), before)
        self.assertNotEqual(out.tobytes(), values.tobytes())
        frozen = values.tobytes()
        self.assertEqual(bits(p.detrend(times.tobytes(), frozen, [p.Revolution(0, 100, 0.0, 200.0)])), bits(out))


class Held(unittest.TestCase):
    """Memory is held while a call runs, and no longer."""

    def test_changed_after_a_refusal(self):
        times, values = array("d", [1.0, 3.0, 2.0]), array("d", [0.0] * 3)
        try:
            p.band_pass(times, values)
        except p.Refused as refusal:
            del times[refusal.row], values[refusal.row]
        self.assertEqual(list(p.band_pass(times, values)), [0.0, 0.0])
        times.append(4.0)
        self.assertEqual(list(times), [1.0, 3.0, 4.0])

    def test_side_by_side(self):
        """Threads answer what one does."""
        with concurrent.futures.ThreadPoolExecutor(4) as threads:
            answers = list(threads.map(lambda _: p.band_pass(TIMES, VALUES), range(40)))
        self.assertEqual({bits(answer) for answer in answers}, {bits(ANSWER)})


class Wanted(unittest.TestCase):
    """A TypeError says which list, and what was wanted of it."""

    def wanted(self, message, call, *given):
        with self.assertRaisesRegex(TypeError, message):
            call(*given)

    def test_doubles(self):
        self.wanted(r"times: doubles \(64-bit floating point\) were wanted, not 'f' of 4 bytes", p.band_pass, array("f", [1.0]), [1.0])
        self.wanted("x: doubles .* were wanted, not 'q' of 8 bytes", p.band_pass, [1.0], array("q", [1]))
        self.wanted("x: doubles .* 7 raw bytes are no whole number", p.band_pass, [1.0], b"1234567")
        self.wanted("times: doubles .* were wanted: must be real number, not str", p.band_pass, ["1"], [1.0])
        self.wanted("times: a buffer, list or tuple of doubles .* was wanted, not str", p.band_pass, "1", [1.0])
        self.wanted("times: .* not NoneType", p.band_pass, None, [1.0])
        self.wanted("times: .* not float", p.band_pass, 1.0, [1.0])
        self.wanted("times: doubles .* not '>d'", p.band_pass, (ctypes.c_double.__ctype_be__ * 1)(1.0), [1.0])

    def test_keys(self):
        reach = p.Reach([1.0], [1], [1], [1], [1], [1.0], [1.0])
        self.assertIsNone(p.horizon_of(reach))
        self.wanted(r"states_c: whole seconds \(64-bit integers\) were wanted", p.horizon_of, reach._replace(c=[1.0]))
        self.wanted("acc_d: whole seconds .* not 'd' of 8 bytes", p.horizon_of, reach._replace(d_acc=array("d", [1.0])))
        self.wanted("states_d: whole seconds .* were wanted: .*too (large|big)", p.horizon_of, reach._replace(d=[2**63]))

    def test_bytes(self):
        self.assertEqual(list(lend("good", [True, False, 255], BYTES).numbers), [1, 0, 255])
        self.assertEqual(list(lend("good", memoryview(b"\1\0").cast("?"), BYTES).numbers), [1, 0])
        self.wanted("good: bytes", lend, "good", [256], BYTES)
        self.wanted("good: bytes", lend, "good", array("d", [1.0]), BYTES)

    def test_numbers(self):
        self.wanted("x: doubles .* were wanted: must be real number, not str", p.root, "2")
        self.wanted("lat: doubles .* not NoneType", p.partials, p.legendre_new(2), bytes(112), 7e6, None, 0.0)
        self.assertEqual(p.root(4), 2.0)

    def test_whole_numbers(self):
        self.wanted("degree: a whole number was wanted, not float", p.legendre_new, 2.0)
        self.wanted("n: a whole number from 0", p.power, 2.0, 2**32)
        self.wanted("n: a whole number from 0", p.power, 2.0, -1)


if __name__ == "__main__":
    unittest.main()
