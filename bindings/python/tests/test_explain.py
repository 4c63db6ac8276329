"""`explain` on the example, and on submissions made to show each reason and each warning."""
import unittest
from array import array

import pozsmeteg as p
from pozsmeteg import explanation as e

from .made import example, made

PAIR = (1900.5, 2500.5)  # one window; its arc begins at second 100


def without(keyed, key, width):
    """A keyed list that lacks one key."""
    at = keyed.keys.index(key)
    return p.Keyed(keyed.keys[:at] + keyed.keys[at + 1 :], keyed.values[: width * at] + keyed.values[width * (at + 1) :])


def upto(keyed, count, width):
    return p.Keyed(keyed.keys[:count], keyed.values[: width * count])


def scaled(keyed, factor):
    return p.Keyed(keyed.keys, array("d", [x * factor for x in keyed.values]))


def seen(submission, times, good=None):
    """The submission with other observations."""
    submission.obs_times, submission.obs_values = array("d", times), array("d", bytes(8 * len(times)))
    submission.good = bytearray(good or b"\1" * len(times))
    return submission


class Explained(unittest.TestCase):
    def outcomes(self, submission):
        """The outcomes of C and of D in the first window."""
        return tuple(w.outcome for w in p.explain(submission).windows[:2])

    def dropped(self, told):
        return {d.reason: d.count for d in told.dropped if d.count}

    def warned(self, told, words):
        self.assertEqual(len([w for w in told.warnings if words in w]), 1, told.warnings)


class Example(Explained):
    def test_whole(self):
        submission, steps = example(), []
        told = p.explain(submission, progress=lambda *step: steps.append(step))
        self.assertEqual(steps, [(k, 6) for k in range(1, 7)])
        self.assertEqual([w.outcome for w in told.windows], ["uncovered"] * 2 + ["fitted"] * 4)
        self.assertEqual([(w.index, w.satellite) for w in told.windows], [(k, s) for k in range(3) for s in "CD"])
        self.assertTrue(all(0.009 < w.rms < 0.011 for w in told.windows[2:]))
        self.assertEqual(self.dropped(told), {"not good": 96, "no fitted state of C": 4624})
        self.assertEqual(told.dropped[0].rows, (44, 319, 459, 512, 532))
        self.assertEqual((told.observations, told.kept, told.final, len(told.runs)), (10281, 5561, 5486, 76))
        self.assertEqual(sum(run.length for run in told.runs), told.kept)
        self.assertEqual((told.runs[-2].last, told.runs[-2].final, told.runs[-1].final), (695321070.0, True, False))
        self.assertEqual((told.horizon, told.next_node, told.held_back_by, told.warnings), (submission.nodes[3], None, None, []))

    def test_passed_runs_are_those_that_passed(self):
        submission = example()
        sheet = p.sheet(submission)
        for run in p.explain(submission, sheet).runs:
            self.assertEqual(run.passed, any(sheet.passed[run.first : run.end]))

    def test_sheet_of_another(self):
        submission = made(nodes=PAIR)
        sheet = p.sheet(submission)
        with self.assertRaisesRegex(p.Inconsistent, "is it this submission's"):
            p.explain(submission, sheet._replace(times=sheet.times[1:]))

    def test_refused(self):
        submission = made(nodes=(2.0, 1.0))
        with self.assertRaises(p.Refused) as caught:
            p.explain(submission)
        self.assertEqual((caught.exception.number, caught.exception.list, caught.exception.row), (5, "nodes", 1))


class Windows(Explained):
    def test_fitted(self):
        told = p.explain(made(nodes=PAIR))
        self.assertEqual([(w.outcome, w.number, w.start, w.end) for w in told.windows], [("fitted", None, *PAIR)] * 2)
        self.assertTrue(all(w.fitted() and w.rms > 0.0 for w in told.windows))

    def test_too_long(self):
        self.assertEqual(self.outcomes(made(nodes=(1900.5, 8900.5))), ("too long", "too long"))
        self.assertEqual(self.outcomes(made(nodes=(1900.5, 8900.499))), ("fitted", "fitted"))

    def test_uncovered(self):
        self.assertEqual(self.outcomes(made(nodes=(1799.0, 2500.5))), ("uncovered", "uncovered"))
        submission = made(nodes=PAIR)
        submission.field_times[1] = 4301.0
        self.assertEqual(self.outcomes(submission), ("uncovered", "uncovered"))

    def test_too_few_states(self):
        submission = made(nodes=PAIR)
        submission.states_d = upto(submission.states_d, 500, 6)
        self.assertEqual(self.outcomes(submission), ("fitted", "too few states"))

    def test_no_first_state(self):
        submission = made(nodes=PAIR)
        submission.states_c = without(submission.states_c, 100, 6)
        self.assertEqual(self.outcomes(submission), ("no first state", "fitted"))

    def test_singular(self):
        submission = made(nodes=PAIR)
        submission.states_d = scaled(submission.states_d, 1e13)
        self.assertEqual(self.outcomes(submission), ("fitted", "singular"))

    def test_not_finite(self):
        """A fit that is not finite is used: the sheet is refused where an epoch reads it, and accepted where none does."""
        submission = made(nodes=PAIR)
        submission.states_c = scaled(submission.states_c, 1e190)
        with self.assertRaises(p.Refused) as caught:
            p.explain(submission)
        self.assertEqual(caught.exception.number, 10)
        submission.good = bytearray(len(submission.good))
        told = p.explain(submission)
        self.assertEqual([(w.outcome, w.number, w.fitted()) for w in told.windows], [("fitted, but not finite", 10, True), ("fitted", None, True)])

    def test_no_window(self):
        told = p.explain(made(nodes=(1900.5,)))
        self.assertEqual((told.windows, told.kept), ([], 0))


class Epochs(Explained):
    def dropped_rows(self, submission):
        told = p.explain(submission)
        self.assertEqual(told.kept + sum(d.count for d in told.dropped), told.observations)
        return told, {d.reason: d.rows for d in told.dropped if d.count}

    def test_each_reason(self):
        """One observation for each reason but those of a satellite, and one that is kept."""
        submission = seen(made(nodes=PAIR), [1902.0, 1905.0, 1906.0, 1908.5, 2000.0, 2600.0, 12000.0], b"\1\1\0\1\1\1\1")
        submission.acc_c = without(submission.acc_c, 1908, 1)
        submission.acc_d = without(submission.acc_d, 2000, 1)
        told, rows = self.dropped_rows(submission)
        self.assertEqual(rows, {
            e.ODD: (1,), e.NOT_GOOD: (2,), e.NO_VALUE["C"]: (3,), e.NO_VALUE["D"]: (4,), e.NO_STATE["C"]: (5,), e.UNCOVERED: (6,)})
        self.assertEqual([(run.start, run.length) for run in told.runs], [(1902.0, 1)])

    def test_only_d(self):
        submission = made(nodes=PAIR)
        submission.states_d = without(submission.states_d, 100, 6)
        told, rows = self.dropped_rows(submission)
        self.assertEqual((rows[e.NO_STATE["C"]], rows[e.NO_STATE["D"]][:2]), ((0, 1, 2, 3, 4), (951, 952)))
        self.assertEqual(told.kept, 0)

    def test_first_reason_applies(self):
        """Not good comes before uncovered, uncovered before an odd second, that before a missing state."""
        told, rows = self.dropped_rows(seen(made(nodes=PAIR), [1.0, 3.0, 12001.0, 12003.0], b"\0\1\1\0"))
        self.assertEqual(rows, {e.NOT_GOOD: (0, 3), e.ODD: (1,), e.UNCOVERED: (2,)})

    def test_edges(self):
        """A window has its first node and not its last; a fraction of a second does not matter."""
        told, rows = self.dropped_rows(seen(made(nodes=(1900.0, 2500.0)), [1898.9, 1900.0, 2498.9, 2500.0]))
        self.assertEqual((told.kept, rows), (2, {e.NO_STATE["C"]: (0, 3)}))


class Runs(unittest.TestCase):
    def test_steps(self):
        """A step of 3.0 s joins, the next double above it splits."""
        above = 3.0000000000000004
        self.assertEqual([(run.first, run.end, run.start, run.last) for run in e.runs_of([0.0, 3.0], 0)], [(0, 2, 0.0, 3.0)])
        self.assertEqual([(run.first, run.end) for run in e.runs_of([0.0, above, above + 1.0], 0)], [(0, 1), (1, 3)])
        self.assertEqual(e.runs_of([], 0), [])

    def test_passed_and_final(self):
        """A run of 64 is blanked, one of 65 passed; runs that end among the first F epochs are final."""
        times = [2.0 * k for k in range(64)] + [1000.0 + 2.0 * k for k in range(65)]
        for final, expected in ((0, [False, False]), (64, [True, False]), (129, [True, True])):
            runs = e.runs_of(times, final)
            self.assertEqual([(run.length, run.passed) for run in runs], [(64, False), (65, True)])
            self.assertEqual([run.final for run in runs], expected)


class Horizon(Explained):
    LISTS = {"states_c": 6, "states_d": 6, "acc_c": 1, "acc_d": 1}

    def test_held_back(self):
        submission = made()
        submission.acc_d = upto(submission.acc_d, 2400, 1)
        submission.states_c = upto(submission.states_c, 2450, 6)
        told = p.explain(submission)
        self.assertEqual((told.horizon, told.next_node), (2500.5, 3100.5))
        short = {r.list: r.short for r in told.reaches}
        self.assertEqual(short, {"fields": 0.0, "states_c": 6.5, "acc_c": 0.0, "states_d": 0.0, "acc_d": 106.5, "observations": 0.0})
        self.assertEqual((told.held_back_by.list, told.held_back_by.last, told.held_back_by.wanted), ("acc_d", 4798.0, 4904.5))
        self.assertEqual([r.list for r in told.reaches if r.holds_back()], ["states_c", "acc_d"])

    def test_empty_list(self):
        submission = made(nodes=PAIR)
        submission.acc_c = p.Keyed([], [])
        told = p.explain(submission)
        self.assertEqual((told.horizon, told.next_node, told.held_back_by), (None, 1900.5, p.ListReach("acc_c", None, 1900.5 + p.BEYOND["acc_c"], None)))

    def test_table_is_the_engines(self):
        """A list that ends where the table says is long enough for the horizon, and one that ends a second before is not."""
        node = 2500.0
        for name in p.BEYOND:
            for less, expected in ((0, node), (1, None)):
                last = int(node + p.BEYOND[name]) - less
                ends = {n: [int(node + p.BEYOND[n])] for n in p.BEYOND}
                ends[name] = [last]
                reach = p.Reach([node], ends["states_c"], ends["states_d"], ends["acc_c"], ends["acc_d"], *(
                    [float(ends[n][0])] for n in ("fields", "observations")))
                self.assertEqual(p.horizon_of(reach), expected, name)


class Warnings(Explained):
    def test_none(self):
        self.assertEqual(p.explain(made()).warnings, [])

    def test_odd_seconds(self):
        told = p.explain(seen(made(nodes=PAIR), range(1, 5001, 2)))
        self.warned(told, "All observations are at odd seconds")
        self.warned(told, "no observation was kept, 2500 of 2500 for the reason 'odd second'")

    def test_short_runs(self):
        told = p.explain(seen(made(nodes=PAIR), range(0, 6000, 10)))
        self.warned(told, "Every run of kept epochs has 64 or fewer")
        self.warned(told, "the usual step between observations is 10 s")

    def test_no_gap(self):
        told = p.explain(made(gap=(0, 0)))
        self.assertEqual((told.final, told.horizon), (0, 3100.5))
        self.warned(told, "There is no gap: the 600 kept epochs are one run")

    def test_different_epochs(self):
        submission = made(nodes=PAIR)
        submission.acc_c = p.Keyed(array("q", [k + 630763200 for k in submission.acc_c.keys]), submission.acc_c.values)
        told = p.explain(submission)
        self.warned(told, "The list acc_c (from 630763200 to 630769198 s) and the observations (from 0 to 5998 s) have no time in common")
        self.assertEqual(len([w for w in told.warnings if "in the same epoch" in w]), 1)

    def test_uncovered_nodes(self):
        told = p.explain(made(nodes=(1900.5, 2500.5, 12000.0)))
        self.warned(told, "The fields (from 0 to 12000 s) do not cover 1 of 3 nodes, the first of them at 12000.000 s")

    def test_no_observation(self):
        told = p.explain(seen(made(nodes=PAIR), []))
        self.assertEqual(told.warnings, ["The sheet has no entry: there is no observation."])


if __name__ == "__main__":
    unittest.main()
