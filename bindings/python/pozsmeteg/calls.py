"""The library's calls as functions of lists: each allocates outputs and scratch, and raises Refused where the library refuses.

Units: metres, seconds, m/s and m/s²; times are GPS seconds past 2000-01-01 12:00, keys the same as whole seconds; angles are radians.
Coefficients are fully normalised. Positions and velocities are Earth-fixed. N is a degree, L = (N + 1)(N + 2)/2, and a field is one
list of 2 + 2 L numbers: GM (m³/s²), radius (m), all C, all S, by degree and then order. Wherever a list is taken it may be an array,
a memoryview, bytes, a NumPy array, a list or a tuple; what a caller gives is never written to.

Calls have no state and let other threads run, which must not change the lists of a call before it returns. The floating-point mode
of the process has to be as C starts it (bindings/c/pozsmeteg.h).
"""
from array import array
from operator import index
from typing import NamedTuple

from .buffers import BYTES, COUNTS, DOUBLES, KEYS, Lent, copied, fresh, lend, real, scratch
from .library import call
from .refusals import FIELDS, KEYED, NODES, OBSERVED, RANGES, STEPS, Count, Length, Order, Refused, bounded, finite, judged

HUGE = 2**64 - 1


def size(name, given):
    """A whole number as the library takes it; one that it cannot hold becomes the largest, which every call refuses."""
    try:
        n = index(given)
    except TypeError:
        raise TypeError(f"{name}: a whole number was wanted, not {type(given).__name__}") from None
    return n if 0 <= n <= HUGE else HUGE


# ---- elementary numbers


def root(x):
    """The double nearest the square root of x; NaN below zero, −0.0 for −0.0."""
    return call("root", real("x", x))


def sine(x):
    """The sine of x radians; NaN for an x that is not finite or beyond 2^20 either way."""
    return call("sine", real("x", x))


def cosine(x):
    """The cosine of x radians; NaN for an x that is not finite or beyond 2^20 either way."""
    return call("cosine", real("x", x))


def arctangent(y, x):
    """The angle of the point (x, y) in radians, −π to π; +0.0 for two zeros of any sign."""
    return call("arctangent", real("y", y), real("x", x))


def arcsine(v):
    """The angle whose sine is v, in radians; NaN beyond 1 either way."""
    return call("arcsine", real("v", v))


def power(a, n, c=1.0):
    """c times a to the n, by halving n, a whole number from 0 to 2^32 − 1."""
    if size("n", n) >= 2**32:
        raise TypeError(f"n: a whole number from 0 to 2^32 - 1 was wanted, not {n}")
    return call("power", real("a", a), n, real("c", c))


# ---- sizes


def places(degree):
    """L, how many coefficients of one kind a field of the degree has; 0 for a degree beyond 180, which every call refuses."""
    n = size("degree", degree)
    return (n + 1) * (n + 2) // 2 if n <= 180 else 0


def fit_scratch(degree, fields):
    """The scratch of a fit, in numbers, with so many added fields."""
    l = places(degree)
    return 2 * min(fields, FIELDS) * l + 8 * l + 150_000


def residuals_scratch(degree, fields, observations):
    """The scratch of `residuals`, in numbers."""
    return fit_scratch(degree, fields) + 10 * min(observations, OBSERVED)


def path_scratch(degree, fields, nodes, observations):
    """The scratch of the whole path, in numbers."""
    return residuals_scratch(degree, fields, observations) + 49_200 * max(0, min(nodes, NODES) - 1)


# ---- fields


class Tables(NamedTuple):
    """The Legendre recursion's tables of one degree, L numbers each, which `legendre_new` makes."""

    degree: int
    a: array
    b: array


def legendre_new(degree):
    """The Legendre recursion's tables of a degree, 2 to 180."""
    l = places(degree)
    a, b = fresh(l), fresh(l)
    judged(call("legendre_new", size("degree", degree), a, b, scratch(8 * l)))
    return Tables(degree, a.numbers, b.numbers)


class Partials(NamedTuple):
    """The potential (m²/s²) and its derivatives by radius (m/s²), latitude and longitude (m²/s² a radian)."""

    v: float
    dr: float
    dlat: float
    dlon: float


def partials(tables, field, r, lat, lon):
    """The potential of a field and its derivatives at the radius r (m), latitude and longitude (rad)."""
    l = len(tables.a)
    lent, place, out = lend("field", field), place_of(r, lat, lon), fresh(4)
    number = call("partials", size("degree", tables.degree), lent, *lent_tables(tables), *place.values(), out, scratch(8 * l))
    judged(number, lambda: [Length("field", lent.length, 2 + 2 * l), finite("field", lent.numbers), *finite_all(**place)])
    return Partials(*out.numbers)


def place_of(r, lat, lon):
    return {"r": real("r", r), "lat": real("lat", lat), "lon": real("lon", lon)}


def lent_tables(tables):
    return lend("tables.a", tables.a), lend("tables.b", tables.b)


def finite_all(**numbers):
    return [finite(name, (x,)) for name, x in numbers.items()]


class Prepared:
    """A field for many evaluations at one degree: what they share is worked out once."""

    def __init__(self, tables, field):
        l, lent = len(tables.a), lend("field", field)
        if lent.length != 2 + 2 * l:
            raise Refused(3, list="field")
        self.tables, self.gm, self.radius = tables, lent.numbers[0], lent.numbers[1]
        self.work = fresh(8 * l)
        self.work.numbers[: 2 * l] = array("d", lent.numbers[2:])
        judged(call("prepare", size("degree", tables.degree), self.work))

    def partials(self, r, lat, lon):
        """As `partials`; a coefficient that is not finite shows in the four numbers, which are then refused by 10."""
        out, place, degree = fresh(4), place_of(r, lat, lon), size("degree", self.tables.degree)
        number = call("partials_prepared", degree, self.gm, self.radius, *lent_tables(self.tables), self.work, *place.values(), out)
        judged(number, lambda: finite_all(gm=self.gm, radius=self.radius, **place))
        return Partials(*out.numbers)


# ---- what fits and epochs read


class Model(NamedTuple):
    """Legendre tables, the static field, and the added fields end to end, one for each of 2 to 32 rising times."""

    tables: Tables
    field: array
    times: array
    added: array


class Keyed(NamedTuple):
    """Values beside the whole seconds they belong to: six a key for states (position in m, velocity in m/s, Earth-fixed), one for an
    accelerometer's (m/s², its x axis towards the other satellite). keys is an array 'q', values an array 'd', flat."""

    keys: array
    values: array


class Pair(NamedTuple):
    """Both satellites' lists: states of C and of D, accelerometer values of C and of D."""

    c: Keyed
    d: Keyed
    c_acc: Keyed
    d_acc: Keyed


class Observations(NamedTuple):
    """Range accelerations (m/s²) at rising times, and a byte for each, 0 where it is not good."""

    times: array
    values: array
    good: bytearray


class Arc(NamedTuple):
    """Where an arc starts, its steps of 2 s, and the node and period (s) of its empirical accelerations."""

    t0: float
    steps: int
    node: float
    period: float


class LentModel:
    """A model's lists as they are lent, and what is tested of them."""

    def __init__(self, model):
        self.degree = size("degree", model.tables.degree)
        self.width = 2 + 2 * places(self.degree)
        self.static = lend("static", model.field)
        self.times = lend("fields.times", model.times)
        self.added = lend("fields.added", model.added, width=self.width)
        self.a, self.b = lent_tables(model.tables)

    def arguments(self):
        return self.degree, self.static, self.a, self.b, self.times, self.added

    def counts(self):
        return [Count("fields", self.times.length, 2, FIELDS)]

    def tests(self):
        return [
            Length("static", self.static.length, self.width), Length("fields", self.added.length, self.times.length * self.width),
            finite("static", self.static.numbers, self.static.length), finite("fields", self.added.numbers, self.width),
            bounded("fields", self.times.numbers), Order("fields", self.times.numbers),
        ]


class LentKeyed:
    """Keys and values as they are lent, under the name of their section."""

    def __init__(self, name, keyed, width):
        self.name, self.width = name, width
        self.keys = lend(f"{name}.keys", keyed[0], KEYS)
        self.values = lend(f"{name}.values", keyed[1], width=width)

    def arguments(self):
        return self.keys, self.values

    def tests(self):
        return [
            Count(self.name, self.keys.length, 0, KEYED), Length(self.name, self.values.length, self.width * self.keys.length),
            bounded(self.name, self.keys.numbers), finite(self.name, self.values.numbers, self.width), Order(self.name, self.keys.numbers),
        ]


class LentPair:
    """Both satellites' lists; the engine tests the states of C and D before the accelerometer values."""

    def __init__(self, pair):
        self.c, self.d = LentKeyed("states_c", pair.c, 6), LentKeyed("states_d", pair.d, 6)
        self.c_acc, self.d_acc = LentKeyed("acc_c", pair.c_acc, 1), LentKeyed("acc_d", pair.d_acc, 1)
        self.parts = self.c, self.d, self.c_acc, self.d_acc

    def arguments(self):
        return [a for part in self.parts for a in part.arguments()]

    def tests(self):
        return [t for part in self.parts for t in part.tests()]


class LentObservations:
    """The observations as they are lent."""

    def __init__(self, seen):
        self.times, self.values = lend("observations.times", seen.times), lend("observations.values", seen.values)
        self.good = lend("observations.good", seen.good, BYTES)

    def arguments(self):
        return self.times, self.values, self.good

    def tests(self):
        m = self.times.length
        return [
            Count("observations", m, 0, OBSERVED), Length("observations", self.values.length, m), Length("observations", self.good.length, m),
            bounded("observations", self.times.numbers), finite("observations", self.values.numbers), Order("observations", self.times.numbers),
        ]


# ---- fits


class Orbit(NamedTuple):
    """A fitted orbit: six numbers a step, flat, and the rms of its misfits (m)."""

    states: array
    rms: float


def fit_orbit(model, states, arc):
    """A dynamic orbit fitted to the positions of `states` (Keyed) at every fifth of an arc's steps."""
    lent, keyed, steps = LentModel(model), LentKeyed("states", states, 6), size("steps", arc.steps)
    arc = Arc(real("t0", arc.t0), steps, real("node", arc.node), real("period", arc.period))
    out, rms = fresh(6 * (min(steps, STEPS) + 1)), fresh(1)
    room = scratch(fit_scratch(lent.degree, lent.times.length))
    number = call("fit_orbit", *lent.arguments(), *keyed.arguments(), arc.t0, steps, arc.node, arc.period, out, rms, room)
    judged(number, lambda: [*lent.counts(), Count("steps", steps, 0, STEPS), *lent.tests(), *arc_tests(arc), *keyed.tests()])
    return Orbit(out.numbers, rms.numbers[0])


def arc_tests(arc):
    return [bounded("t0", (abs(arc.t0),)), bounded("node", (arc.node,)), finite("period", (arc.period,))]


# ---- epochs


class Epoch(NamedTuple):
    """An epoch's record: its time, the residual and the five terms (m/s²), the pair's midpoint (m) and its velocity (m/s)."""

    t: float
    residual: float
    terms: tuple
    mid: tuple
    vel: tuple


def records(count, times, values, terms, mids, vels):
    """The first records of the five flat lists."""
    cut = lambda list, k, width: tuple(list[width * k : width * (k + 1)])
    return [Epoch(times[k], values[k], cut(terms, k, 5), cut(mids, k, 3), cut(vels, k, 3)) for k in range(count)]


def rows(count, width):
    """An output of so many rows, of which the library is told the rows."""
    return Lent(fresh(count * width).numbers, count)


def residuals(model, pair, seen):
    """The records of the kept epochs, in the observations' order, from the states as they are given (no orbit is fitted)."""
    lent, both, observed = LentModel(model), LentPair(pair), LentObservations(seen)
    m = observed.times.length
    outs, counts = [rows(m, width) for width in (1, 1, 5, 3, 3)], fresh(1, "Q")
    room = scratch(residuals_scratch(lent.degree, lent.times.length, m))
    number = call("residuals", *lent.arguments(), *both.arguments(), *observed.arguments(), *outs, counts, room)
    judged(number, lambda: [*lent.counts(), *lent.tests(), *both.tests(), *observed.tests()])
    return records(counts.numbers[0], *(out.numbers for out in outs))


# ---- detrending and the band-pass


class Revolution(NamedTuple):
    """A revolution: its epochs' places, the end excluded, its first node and its period (s)."""

    first: int
    end: int
    start: float
    period: float


def revolutions(times, nodes):
    """The revolutions between neighbouring nodes that have 50 epochs or more at these times."""
    lent, ends = lend("times", times), lend("nodes", nodes)
    count = max(0, ends.length - 1)
    outs, counts = [fresh(count, "Q"), fresh(count, "Q"), fresh(count), fresh(count)], fresh(1, "Q")
    judged(call("revolutions", lent, ends, *outs, counts), lambda: [
        Count("times", lent.length, 0, OBSERVED), Count("nodes", ends.length, 0, NODES),
        bounded("times", lent.numbers), bounded("nodes", ends.numbers), Order("times", lent.numbers), Order("nodes", ends.numbers)])
    return [Revolution(*row) for row in zip(*(out.numbers[: counts.numbers[0]] for out in outs))]


def detrend(times, values, revolutions):
    """The values less a bias, a trend and the waves of one and two turns of each revolution, as a new array."""
    lent, given = lend("times", times), lend("values", values)
    out, room = copied(given), scratch(8 * lent.length)
    ranges = [Revolution(*r) for r in revolutions]
    firsts, ends = lend("first", [size("first", r.first) for r in ranges], COUNTS), lend("end", [size("end", r.end) for r in ranges], COUNTS)
    starts, periods = lend("start", [r.start for r in ranges]), lend("period", [r.period for r in ranges])
    number = call("detrend", lent, out, firsts, ends, starts, periods, room)
    judged(number, lambda: detrend_tests(lent, given, firsts, ends, starts, periods))
    return out.numbers


def detrend_tests(times, values, firsts, ends, starts, periods):
    ranges = [Count("revolutions", f, 0, min(e, times.length)) for f, e in zip(firsts.numbers, ends.numbers)]
    return [
        Count("times", times.length, 0, OBSERVED), Count("revolutions", starts.length, 0, RANGES), *ranges,
        *(Count("revolutions", e, 0, times.length) for e in ends.numbers), Length("values", values.length, times.length),
        bounded("times", times.numbers), finite("values", values.numbers), bounded("revolutions", starts.numbers),
        finite("revolutions", periods.numbers), Order("times", times.numbers), Order("revolutions", starts.numbers),
    ]


def band_pass(times, x):
    """Each run of the times (steps of at most 3.0 s) through the band from 1 to 10 mHz; runs of 64 samples or fewer give +0.0."""
    lent, given = lend("times", times), lend("x", x)
    out = fresh(lent.length)
    judged(call("band_pass", lent, given, out, scratch(8 * lent.length)), lambda: [
        Count("times", lent.length, 0, OBSERVED), Length("x", given.length, lent.length),
        bounded("times", lent.numbers), finite("x", given.numbers), Order("times", lent.numbers)])
    return out.numbers


# ---- which entries are final


class Reach(NamedTuple):
    """What the horizon looks at: the nodes, the keys of both satellites' states and accelerometer values, the times of fields and of
    observations."""

    nodes: array
    c: array
    d: array
    c_acc: array
    d_acc: array
    fields: array
    observed: array


REACH_NAMES = ("nodes", "states_c", "states_d", "acc_c", "acc_d", "fields", "observations")
MOST = {"nodes": NODES, "fields": FIELDS, "observations": OBSERVED, "kept": OBSERVED}
TIMES_FIRST = ("nodes", "fields", "observations", "kept", "states_c", "states_d", "acc_c", "acc_d")
ORDER_FIRST = ("nodes", "observations", "kept", "fields", "states_c", "states_d", "acc_c", "acc_d")


def lent_reach(reach):
    kinds = (DOUBLES, KEYS, KEYS, KEYS, KEYS, DOUBLES, DOUBLES)
    return {name: lend(name, given, kind) for name, given, kind in zip(REACH_NAMES, reach, kinds)}


def reach_tests(lists):
    """The tests of the lists that are there, in the engine's order."""
    values = [name for name in TIMES_FIRST if name in lists]
    order = [name for name in ORDER_FIRST if name in lists]
    return [
        *(Count(name, lists[name].length, 0, MOST.get(name, KEYED)) for name in values),
        *(bounded(name, lists[name].numbers) for name in values), *(Order(name, lists[name].numbers) for name in order)]


def horizon_of(reach):
    """The largest node that every list reaches far enough beyond (bindings/c/pozsmeteg.h), None where there is none."""
    lists, out = lent_reach(reach), fresh(1)
    judged(call("horizon", *lists.values(), out), lambda: reach_tests(lists))
    return out.numbers[0] if out.numbers[0] >= 0.0 else None


def final_count_of(reach, kept):
    """F: how many of the kept epochs at these times no appended data can change."""
    lists, counts = lent_reach(reach), fresh(1, "Q")
    lists["kept"] = lend("kept", kept)
    judged(call("final_count", *lists.values(), counts), lambda: reach_tests(lists))
    return counts.numbers[0]


def final_entries(published, count):
    """The first F entries of a published list, none where it has not so many; of a buffer a part of the same memory or a copy."""
    lent = lend("published", published)
    return lent.numbers[: call("final_entries", lent, size("count", count))]
