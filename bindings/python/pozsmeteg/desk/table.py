"""A sheet as a table for reading. It rounds; `desk final` does not."""
import pozsmeteg

from . import arguments, clock, sheets, texts
from .run import refusals_of

HEADS = {"raw": "raw", "detrended": "detrended", "passed": "passed", "distance": "distance (m)"}


def run(options):
    sheet = sheets.read(options.sheet)
    print(heading(sheet, options.submission))
    names = [f"{HEADS[name]:>14}" for name in sheet.columns()]
    print(f"{'entry':>6} {'GPS time':>23} {'GPS seconds':>15}", *names, " (raw, detrended, passed in nm/s²)")
    blanked = blanked_places(sheet)
    before = None
    for place in shown_places(sheet, options.every):
        if before is not None and place != before + 1:
            print(f"{'...':>6}")
        before = place
        print(line_of(sheet, place, place in blanked))
    return 0


def heading(sheet, submission):
    words = f"{len(sheet.rows)} entries, {sheet.final} of them final"
    if submission is None:
        return words
    read = texts.of_sheet(submission, sheet)
    with refusals_of(submission, read):
        horizon = pozsmeteg.horizon(read)
    return words + ("; horizon: none" if horizon is None else f"; horizon: {horizon:.3f} s, {clock.precise(horizon)} GPS time")


def shown_places(sheet, every):
    """Every so many, and where the last word changes."""
    near = {sheet.final - 1, sheet.final, len(sheet.rows) - 1}
    return [place for place in range(len(sheet.rows)) if place % every == 0 or place in near]


def blanked_places(sheet):
    """The entries of runs that are too short to be passed through the band."""
    return {place for first, end in sheet.runs() if end - first <= sheets.SHORT for place in range(first, end)}


def line_of(sheet, place, blanked):
    cells = []
    for name, column in zip(sheet.columns(), sheet.values):
        if name == "passed" and blanked:
            cells.append(f"{'blanked':>14}")
        else:
            cells.append(f"{column[place]:14.4f}" if name == "distance" else f"{column[place] * 1e9:14.4f}")
    time = sheet.times[place]
    return " ".join([f"{place + 1:6} {clock.precise(time)} {time:15.4f}", *cells, f" {sheet.word(place)}"])


def register(add):
    parser = add(
        "table", run, "a table of the entries, with the word `final` or `may still move` in each row; the numbers are rounded",
        "desk table day.sheet day.txt --every 400", "desk table day.sheet | less")
    parser.add_argument("sheet", metavar="SHEET")
    parser.add_argument("submission", metavar="SUBMISSION", nargs="?", help="what the sheet was worked out from: tells the horizon")
    parser.add_argument("--every", metavar="N", type=arguments.count("--every"), default=1, help="every Nth entry, and those where the last word changes (default: all)")
