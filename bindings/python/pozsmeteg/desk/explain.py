"""What the engine did with a submission, in plain words."""
from array import array

import pozsmeteg

from . import clock, progress, run as path_run, sheets, texts
from .faults import BadInput

FEW = 24  # so many runs are told unless all are asked for


def explained(options):
    """What the module tells of a submission, and of its sheet where that is given."""
    sheet = None
    if options.sheet is None:
        submission, digest = texts.read(options.submission)
    else:
        read = sheets.read(options.sheet)
        submission, sheet = texts.of_sheet(options.submission, read), as_answered(read)
    seconds = path_run.estimate(submission) * (2 if sheet is None else 1)
    teller = progress.Teller(f"explanation of {options.submission}", seconds, options.progress)
    try:
        with path_run.refusals_of(options.submission, submission):
            return progress.worked(lambda: pozsmeteg.explain(submission, sheet, teller.done), teller)
    except pozsmeteg.Inconsistent as fault:
        raise BadInput(f"{options.sheet}: not the sheet of {options.submission}: {fault}") from fault


def as_answered(sheet):
    """A sheet that was read as the module has it; a list that the sheet lacks is empty."""
    width = len(pozsmeteg.Sheet._fields) - 1
    lists = [sheet.times, *sheet.values] + [array("d")] * width
    return pozsmeteg.Sheet(*lists[:width], sheet.final)


# ---- in words


def both_times(seconds):
    return f"{seconds:.3f} s ({clock.precise(seconds)})"


def windows(told):
    """A line for each window, with both satellites."""
    pairs = {}
    for window in told.windows:
        pairs.setdefault(window.index, []).append(window)
    yield f"windows between neighbouring nodes: {len(pairs)}"
    for index, of_both in pairs.items():
        start, end = of_both[0].start, of_both[0].end
        words = "; ".join(f"{window.satellite} {outcome(window)}" for window in of_both)
        yield f"  {index + 1:3}  {both_times(start)} to {both_times(end)}: {words}"


def outcome(window):
    if window.rms is not None:
        return f"{window.outcome}, rms {window.rms:.4g} m"
    return window.outcome if window.fitted() else f"skipped: {window.outcome}"


def epochs(told):
    yield f"observations: {told.observations}, of which {told.kept} are kept"
    for dropped in told.dropped:
        if dropped.count:
            more = ", ..." if dropped.count > len(dropped.rows) else ""
            rows = ", ".join(str(row + 1) for row in dropped.rows)
            yield f"  {dropped.count:6} dropped: {dropped.reason} (row{'s' if dropped.count > 1 else ''} {rows}{more})"


def runs(told, all_of_them):
    passed = sum(run.passed for run in told.runs)
    blanked = len(told.runs) - passed
    yield f"runs of kept epochs: {len(told.runs)}, of which {passed} are passed and {blanked} blanked (64 epochs or fewer)"
    shown = told.runs if all_of_them or len(told.runs) <= FEW else [*told.runs[: FEW - 4], None, *told.runs[-4:]]
    for run in shown:
        if run is None:
            yield f"     ... {len(told.runs) - FEW} more (--all tells them)"
            continue
        words = f"{'passed' if run.passed else 'blanked':7}  {sheets.FINAL if run.final else sheets.OPEN}"
        yield f"  {run.length:6} epochs, entries {run.first + 1} to {run.end}, {both_times(run.start)} to {both_times(run.last)}: {words}"


def horizon(told):
    yield f"final: {told.final} of {told.kept} entries"
    yield "horizon: " + ("none" if told.horizon is None else both_times(told.horizon))
    if told.next_node is None:
        yield "no node is left that could be the next horizon"
        return
    yield f"the next node that could be the horizon: {both_times(told.next_node)}"
    for reach in told.reaches:
        if reach.holds_back():
            last = "is empty" if reach.last is None else f"ends at {reach.last:.3f} s, {reach.short:.3f} s short of {reach.wanted:.3f} s"
            most = "  <- holds it back most" if reach == told.held_back_by else ""
            yield f"  waits for '{reach.list}', which {last}{most}"


def run(options):
    told = explained(options)
    for part in (windows(told), epochs(told), runs(told, options.all), horizon(told)):
        for line in part:
            print(line)
    for sentence in told.warnings:
        print(f"warning: {sentence}")
    return 0


def register(add):
    parser = add(
        "explain", run, "windows fitted and skipped, epochs dropped and why, runs, which list holds the horizon back, warnings\n"
        "(each window is fitted once more, so this takes as long as the sheet; without SHEET twice as long)",
        "desk explain day.txt day.sheet", "desk explain day.txt --all")
    parser.add_argument("submission", metavar="SUBMISSION", help="the text of a submission")
    parser.add_argument("sheet", metavar="SHEET", nargs="?", help="its sheet, where it is there already")
    parser.add_argument("--all", action="store_true", help="tell all runs, however many")
    parser.add_argument("--progress", action="store_true", help="tell the time gone also where standard error is no terminal")
