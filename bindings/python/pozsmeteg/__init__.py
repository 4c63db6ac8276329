"""Range-acceleration residuals of a satellite pair (laser ranging, GRACE-FO style), over the proved engine's shared library.

    import pozsmeteg
    submission = pozsmeteg.Submission(degree, static, field_times, added, states_c, acc_c, states_d, acc_d, nodes, obs_times, obs_values, good)
    sheet = pozsmeteg.sheet(submission)
    record = sheet.passed[:sheet.final]     # these no appended data can change

Units: metres, seconds, m/s²; times are GPS seconds past 2000-01-01 12:00; coefficients are fully normalised; each accelerometer's x axis
points towards the other satellite. A call that refuses raises Refused, with the number, the words and, where it can be told, list and row.
"""
from .calls import (
    Arc, Epoch, Keyed, Model, Observations, Orbit, Pair, Partials, Prepared, Reach, Revolution, Tables,
    arcsine, arctangent, band_pass, cosine, detrend, final_count_of, final_entries, fit_orbit, horizon_of, legendre_new, fit_scratch, partials,
    path_scratch, places, power, residuals, residuals_scratch, revolutions, root, sine)
from .explanation import Dropped, Explanation, Inconsistent, Run, Window, explain
from .library import LibraryMissing, WrongMode
from .reach import BEYOND, ListReach
from .refusals import WORDS, Refused
from .submission import Sheet, Submission, final_count, horizon, sheet, sheet_scratch
from .version import VERSION as __version__

__all__ = [
    "Arc", "BEYOND", "Dropped", "Epoch", "Explanation", "Inconsistent", "Keyed", "LibraryMissing", "ListReach", "Model", "Observations", "Orbit",
    "Pair", "Partials", "Prepared", "Reach", "Refused", "Revolution", "Run", "Sheet", "Submission", "Tables", "WORDS", "Window", "WrongMode", "__version__",
    "arcsine", "arctangent", "band_pass", "cosine", "detrend", "explain", "final_count", "final_count_of", "final_entries", "fit_orbit",
    "horizon", "horizon_of", "legendre_new", "fit_scratch", "partials", "path_scratch", "places", "power", "residuals", "residuals_scratch",
    "revolutions", "root", "sheet", "sheet_scratch", "sine",
]
