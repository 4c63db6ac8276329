"""How far each list has to reach beyond a node before that node can be the horizon (document 01, module 9), and how far it does."""
from typing import NamedTuple, Optional

# the one table of the package, by list, in seconds
BEYOND = {
    "fields": 1804.0,
    "states_c": 1804.0,
    "acc_c": 1804.0,
    "states_d": 1804.0,
    "acc_d": 1804.0,
    "observations": 1804.0,
}


class ListReach(NamedTuple):
    """A list's last time, the time that the next node asks of it, and by how many seconds it falls short of that: 0.0 where it does
    not, None where there is no next node or the list is empty."""

    list: str
    last: Optional[float]
    wanted: Optional[float]
    short: Optional[float]

    def holds_back(self):
        """Whether the next node waits for this list."""
        return self.wanted is not None and (self.last is None or self.short > 0.0)


def next_node(nodes, horizon):
    """The first node behind the horizon, the first of all where there is none, None where all are passed."""
    return next((z for z in nodes if horizon is None or z > horizon), None)


def list_reach(name, times, node):
    """What the next node asks of one list; the sum is rounded once, as the engine's."""
    last = float(times[-1]) if len(times) else None
    wanted = None if node is None else node + BEYOND[name]
    short = None if wanted is None or last is None else max(0.0, wanted - last)
    return ListReach(name, last, wanted, short)


def farthest_behind(reaches):
    """The list that holds the next node back most, an empty one before all others; None where none does."""
    holding = [r for r in reaches if r.holds_back()]
    return max(holding, key=lambda r: float("inf") if r.short is None else r.short, default=None)
