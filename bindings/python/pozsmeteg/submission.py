"""A submission and its sheet: the whole path from gravity model, orbits, accelerometers, nodes and observations to residuals."""
from array import array
from dataclasses import dataclass
from typing import NamedTuple

from .buffers import fresh, lend, scratch
from .calls import (
    Keyed, LentModel, LentObservations, LentPair, Model, Observations, Pair, Reach, final_count_of, horizon_of, legendre_new, path_scratch,
    places)
from .library import call
from .refusals import NODES, Count, Order, bounded, judged


@dataclass
class Submission:
    """What is submitted. Units: metres, seconds, m/s², GPS seconds past 2000-01-01 12:00, fully normalised coefficients.

    degree        N, 2 to 180; L = (N + 1)(N + 2)/2
    static        the static field, 2 + 2 L numbers: GM (m³/s²), radius (m), all C, all S, by degree and then order
    field_times   the times of 2 to 32 added fields, rising
    added         the added fields end to end, 2 + 2 L numbers each
    states_c ...  Keyed: position (m) and velocity (m/s), Earth-fixed, of the satellites C and D, six numbers a whole second
    acc_c ...     Keyed: accelerometer values (m/s²) of C and D, each accelerometer's x axis towards the other satellite
    nodes         at most 64 ascending nodes' times, rising
    obs_times     the times of at most 100,000 observed range accelerations, rising
    obs_values    these (m/s²)
    good          a byte for each, 0 where the observation is not good
    """

    degree: int
    static: array
    field_times: array
    added: array
    states_c: Keyed
    acc_c: Keyed
    states_d: Keyed
    acc_d: Keyed
    nodes: array
    obs_times: array
    obs_values: array
    good: bytearray

    def flat(self):
        """The same submission, each list as a flat sequence of its numbers: the caller's own memory where it has that form."""
        pair = LentPair(self.pair())
        c, d, c_acc, d_acc = (Keyed(part.keys.numbers, part.values.numbers) for part in pair.parts)
        seen = (lent.numbers for lent in LentObservations(self.observations()).arguments())
        static, times, nodes = (lend(*given).numbers for given in (("static", self.static), ("fields.times", self.field_times), ("nodes", self.nodes)))
        added = lend("fields.added", self.added, width=2 + 2 * places(self.degree)).numbers
        return Submission(self.degree, static, times, added, c, c_acc, d, d_acc, nodes, *seen)

    def model(self, tables):
        """The gravity model, with the Legendre tables of the degree."""
        if tables.degree != self.degree:
            raise TypeError(f"tables: those of degree {self.degree} were wanted, not of {tables.degree}")
        return Model(tables, self.static, self.field_times, self.added)

    def pair(self):
        """Both satellites' lists."""
        return Pair(self.states_c, self.states_d, self.acc_c, self.acc_d)

    def observations(self):
        """The observed range accelerations."""
        return Observations(self.obs_times, self.obs_values, self.good)

    def reach(self):
        """What the horizon looks at."""
        keys = (keyed[0] for keyed in self.pair())
        return Reach(self.nodes, *keys, self.field_times, self.obs_times)


class Sheet(NamedTuple):
    """What the whole path publishes of the K kept epochs: their times (GPS s), raw, detrended and passed residuals (m/s²), arrays of K
    numbers; and how many of them, from the first on, are final."""

    times: array
    raws: array
    detrended: array
    passed: array
    final: int


def sheet_scratch(submission):
    """The scratch of a submission's sheet, in numbers."""
    lists = submission.flat()
    return path_scratch(lists.degree, len(lists.field_times), len(lists.nodes), len(lists.obs_times))


def sheet(submission, tables=None):
    """The sheet of a submission: both satellites fitted between the nodes, the residuals of the kept epochs, detrended by revolutions,
    passed through the band from 1 to 10 mHz, and how many are final. The tables are those of `legendre_new`, made where none are given."""
    lent = LentModel(submission.model(tables if tables is not None else legendre_new(submission.degree)))
    both, seen, nodes = LentPair(submission.pair()), LentObservations(submission.observations()), lend("nodes", submission.nodes)
    m = seen.times.length
    outs, counts = [fresh(m) for _ in range(4)], fresh(2, "Q")
    room = scratch(path_scratch(lent.degree, lent.times.length, nodes.length, m))
    number = call("sheet", *lent.arguments(), *both.arguments(), nodes, *seen.arguments(), *outs, counts, room)
    judged(number, lambda: [*lent.counts(), *lent.tests(), *both.tests(), *node_tests(nodes), *seen.tests()])
    kept, final = counts.numbers
    return Sheet(*(out.numbers[:kept] for out in outs), final)


def node_tests(nodes):
    return [Count("nodes", nodes.length, 0, NODES), bounded("nodes", nodes.numbers), Order("nodes", nodes.numbers)]


def horizon(submission):
    """The horizon of a submission, the largest node that every list reaches far enough beyond; None where there is none."""
    return horizon_of(submission.reach())


def final_count(submission, kept_times):
    """F of a submission: how many of the kept epochs at these times no appended data can change."""
    return final_count_of(submission.reach(), kept_times)
