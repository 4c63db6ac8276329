"""What the engine did with a submission, as data: windows, dropped epochs, runs, the horizon, and warnings in plain words."""
import math
from array import array
from dataclasses import dataclass
from typing import NamedTuple, Optional

from .calls import Arc, fit_orbit, legendre_new
from .reach import ListReach, farthest_behind, list_reach, next_node
from .refusals import Refused
from .submission import Sheet, horizon, sheet as sheet_of

LONGEST, MARGIN, STEP = 7000.0, 1800.0, 2.0  # of windows, before and behind them, of an arc (document 01, module 4)
SPLIT, SHORT = 3.0, 64  # a longer step begins a run, a run of so many epochs is blanked (module 7)
FEW = 5  # rows that are told of each reason

FITTED, NOT_FINITE, TOO_LONG = "fitted", "fitted, but not finite", "too long"
SKIPPED = {6: "uncovered", 7: "too few states", 8: "no first state", 9: "singular"}

NOT_GOOD, UNCOVERED, ODD = "not good", "uncovered by the fields", "odd second"
NO_STATE = {"C": "no fitted state of C", "D": "no fitted state of D"}
NO_VALUE = {"C": "no accelerometer value of C", "D": "no accelerometer value of D"}
REASONS = (NOT_GOOD, UNCOVERED, ODD, *NO_STATE.values(), *NO_VALUE.values())


class Inconsistent(Exception):
    """The sheet has other epochs than those found to be kept: it belongs to another submission, or this package is wrong."""


class Window(NamedTuple):
    """A pair of neighbouring nodes and a satellite, C or D: fitted with its rms (m), or skipped and why. `number` is that of the fit's
    refusal. A fit whose states are not finite is no skip: the whole path uses it, and refuses by 10 where an epoch reads them."""

    index: int
    start: float
    end: float
    satellite: str
    outcome: str
    rms: Optional[float] = None
    number: Optional[int] = None

    def fitted(self):
        """Whether the whole path has states of this window."""
        return self.outcome in (FITTED, NOT_FINITE)


class Dropped(NamedTuple):
    """How many observations were dropped for a reason, and the first few of their rows."""

    reason: str
    count: int
    rows: tuple


class Run(NamedTuple):
    """A stretch of kept epochs with no step above 3.0 s: its places in the sheet, the end excluded, its first and last time (GPS s),
    whether it went through the band or was blanked (64 epochs or fewer), whether it is final."""

    first: int
    end: int
    start: float
    last: float
    passed: bool
    final: bool

    @property
    def length(self):
        """How many epochs it has."""
        return self.end - self.first


@dataclass
class Explanation:
    """What became of a submission. Times are GPS seconds, rows and indexes are counted from 0.

    windows       a Window for each pair of neighbouring nodes, of C and then of D
    observations  M; kept and the counts in `dropped` add up to it
    dropped       a Dropped for each reason, by the first that applies in the order of REASONS
    runs          the runs of the kept epochs
    final         F
    horizon       the horizon, None where there is none
    next_node     the node that would be the horizon next, None where all are passed
    reaches       a ListReach for each list that the horizon looks at
    held_back_by  that of the list which holds the next node back most, None where none does
    warnings      sentences about what looks like a mistake
    """

    windows: list
    observations: int
    kept: int
    dropped: list
    runs: list
    final: int
    horizon: Optional[float]
    next_node: Optional[float]
    reaches: list
    held_back_by: Optional[ListReach]
    warnings: list


# ---- windows


def arc_of(a, b):
    """The arc of a window (a, b): from the even second at or before a − 1800 to b + 1800, in steps of 2 s."""
    t0 = STEP * math.floor((a - MARGIN) / STEP)
    return Arc(t0, math.ceil((b + MARGIN - t0) / STEP), a, b - a)


def window_of(model, states, index, a, b, satellite):
    """What a window's fit answers."""
    if not b - a < LONGEST:
        return Window(index, a, b, satellite, TOO_LONG)
    try:
        return Window(index, a, b, satellite, FITTED, fit_orbit(model, states, arc_of(a, b)).rms)
    except Refused as refusal:
        if refusal.number < 6:
            raise
        return Window(index, a, b, satellite, SKIPPED.get(refusal.number, NOT_FINITE), None, refusal.number)


def windows_of(submission, tables, progress):
    """All windows, each fitted anew; progress is told how many of how many fits are done."""
    model, nodes = submission.model(tables), submission.nodes
    asked = [(k, nodes[k], nodes[k + 1], satellite, states) for k in range(len(nodes) - 1)
             for satellite, states in (("C", submission.states_c), ("D", submission.states_d))]
    found = []
    for k, a, b, satellite, states in asked:
        found.append(window_of(model, states, k, a, b, satellite))
        if progress:
            progress(len(found), len(asked))
    return found


# ---- epochs


class Epochs:
    """Why an observation is dropped: what its test needs, made once."""

    def __init__(self, submission, windows):
        self.times, self.good = submission.obs_times, submission.good
        self.cover = submission.field_times[0], submission.field_times[-1]
        self.fitted = {s: [(w.start, w.end) for w in windows if w.satellite == s and w.fitted()] for s in "CD"}
        self.values = {"C": set(submission.acc_c.keys), "D": set(submission.acc_d.keys)}

    def reason(self, row):
        """The first reason that applies, None for a kept epoch."""
        t = self.times[row]
        second = int(t)
        if not self.good[row]:
            return NOT_GOOD
        if not self.cover[0] <= t < self.cover[1]:
            return UNCOVERED
        if second % 2:
            return ODD
        for satellite in "CD":
            if not any(a <= second < b for a, b in self.fitted[satellite]):
                return NO_STATE[satellite]
        return next((NO_VALUE[s] for s in "CD" if second not in self.values[s]), None)


def epochs_of(submission, windows):
    """The times of the kept epochs, and what was dropped."""
    epochs, kept, rows = Epochs(submission, windows), array("d"), {reason: [] for reason in REASONS}
    for row, t in enumerate(epochs.times):
        reason = epochs.reason(row)
        if reason is None:
            kept.append(t)
        else:
            rows[reason].append(row)
    return kept, [Dropped(reason, len(found), tuple(found[:FEW])) for reason, found in rows.items()]


def runs_of(times, final):
    """The runs of kept epochs; the first `final` epochs are final, whole runs of them."""
    cuts = [i for i in range(1, len(times)) if times[i] - times[i - 1] > SPLIT]
    ends = [*cuts, len(times)] if len(times) else []
    return [Run(a, b, times[a], times[b - 1], b - a > SHORT, b <= final) for a, b in zip([0, *cuts], ends)]


# ---- the whole


def explain(submission, sheet=None, progress=None):
    """What the engine did with a submission; Refused where it has no sheet. Each window is fitted once more, so this takes as long as
    the sheet; progress is called with (done, of). A sheet that is given has to be the submission's own."""
    submission, tables = submission.flat(), legendre_new(submission.degree)
    sheet = sheet_of(submission, tables) if sheet is None else Sheet(*sheet)
    windows = windows_of(submission, tables, progress)
    kept, dropped = epochs_of(submission, windows)
    if list(kept) != list(sheet.times):
        raise Inconsistent(f"{len(kept)} epochs were found to be kept, and the sheet has {len(sheet.times)}, or others: is it this submission's?")
    z = horizon(submission)
    node = next_node(submission.nodes, z)
    reaches = [list_reach(name, times, node) for name, times in timed_lists(submission).items() if name != "nodes"]
    runs = runs_of(sheet.times, sheet.final)
    told = Explanation(windows, len(submission.obs_times), len(kept), dropped, runs, sheet.final, z, node, reaches, farthest_behind(reaches), [])
    told.warnings = [sentence for warn in WARNINGS for sentence in warn(submission, told)]
    return told


def timed_lists(submission):
    """The times or keys of each list, by its section's name."""
    return {
        "fields": submission.field_times,
        "states_c": submission.states_c.keys,
        "acc_c": submission.acc_c.keys,
        "states_d": submission.states_d.keys,
        "acc_d": submission.acc_d.keys,
        "nodes": submission.nodes,
        "observations": submission.obs_times,
    }


# ---- warnings: each answers the sentences for which there is a cause


def nothing_kept(submission, told):
    if told.kept:
        return []
    if not told.observations:
        return ["The sheet has no entry: there is no observation."]
    most = max(told.dropped, key=lambda d: d.count)
    return [f"The sheet has no entry: no observation was kept, {most.count} of {told.observations} for the reason '{most.reason}'."]


def odd_seconds(submission, told):
    if told.observations and all(int(t) % 2 for t in submission.obs_times):
        return ["All observations are at odd seconds, where there is no fitted state: fitted orbits have even seconds only."]
    return []


def short_runs(submission, told):
    if not told.runs or any(run.passed for run in told.runs):
        return []
    steps = sorted(b - a for a, b in zip(submission.obs_times, submission.obs_times[1:]))
    usual = f"; the usual step between observations is {steps[len(steps) // 2]:g} s" if steps else ""
    return [f"Every run of kept epochs has {SHORT} or fewer, so all passed values are blanked (+0.0): a step above {SPLIT} s begins a new run{usual}."]


def no_gap(submission, told):
    if len(told.runs) == 1 and not told.final:
        return [f"There is no gap: the {told.kept} kept epochs are one run without a step above {SPLIT} s, and none can be final (F = 0) before it ends."]
    return []


def apart(submission, told):
    """Lists that have no time in common with the observations."""
    spans = {name: (times[0], times[-1]) for name, times in timed_lists(submission).items() if len(times)}
    first, last = spans.pop("observations", (-math.inf, math.inf))
    return [f"The list {name} (from {a:.0f} to {b:.0f} s) and the observations (from {first:.0f} to {last:.0f} s) have no time in common:"
            " are they in the same epoch?" for name, (a, b) in spans.items() if b < first or last < a]


def uncovered_nodes(submission, told):
    first, last = submission.field_times[0], submission.field_times[-1]
    outside = [z for z in submission.nodes if not first <= z < last]
    if not outside:
        return []
    return [f"The fields (from {first:.0f} to {last:.0f} s) do not cover {len(outside)} of {len(submission.nodes)} nodes,"
            f" the first of them at {outside[0]:.3f} s: windows there are skipped."]


WARNINGS = (nothing_kept, odd_seconds, short_runs, no_gap, apart, uncovered_nodes)
