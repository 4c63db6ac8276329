"""The sheet of a submission."""
import contextlib

import pozsmeteg

from . import files, progress, sheets, texts
from .faults import BadInput

LONGEST = 7000.0  # a longer window between two nodes is not fitted (document 01, module 4)
PER_PLACE = 6.5e-4  # seconds that a window takes for each pair of coefficients, measured on one core at degrees 10 and 180
PER_WINDOW = 0.42  # and besides


def estimate(submission):
    """Roughly how many seconds the sheet takes: nearly all goes into the fits, which grow with the windows and the field's coefficients."""
    nodes = submission.nodes
    windows = sum(b - a < LONGEST for a, b in zip(nodes, nodes[1:]))
    return windows * (PER_WINDOW + PER_PLACE * pozsmeteg.places(submission.degree))


def run(options):
    submission, digest = texts.read(options.submission)
    files.keep_apart(options.output, options.submission)
    files.try_place(options.output)
    sheet = made(options.submission, submission, options.progress)
    files.write(options.output, sheets.parts_of(sheet, digest, pozsmeteg.__version__))
    return 0


def made(path, submission, asked):
    teller = progress.Teller(f"sheet of {path}", estimate(submission), asked)
    with refusals_of(path, submission):
        return progress.worked(lambda: pozsmeteg.sheet(submission), teller)


@contextlib.contextmanager
def refusals_of(path, submission):
    """A refusal of the engine is told with the place of its cause in the text."""
    try:
        yield
    except pozsmeteg.Refused as refused:
        raise BadInput(told(path, submission, refused)) from refused


def told(path, submission, refused):
    """A refusal as one sentence: the engine's number and words, and where its cause stands."""
    words = f"{path}: refused {refused.number}: {refused.words}"
    if refused.list is None:
        return words
    line = texts.line_of(submission, refused.list, refused.row)
    row = "" if refused.row is None else f"row {refused.row + 1} of "
    return words + f", at {row}'{refused.list}'" + ("" if line is None else f", line {line}")


def register(add):
    parser = add(
        "sheet", run, "the sheet of a submission: runs the whole path, and writes the sheet whole or not at all",
        "desk sheet day.txt -o day.sheet", "desk sheet day.txt -o day.sheet --progress 2>log")
    parser.add_argument("submission", metavar="SUBMISSION", help="the text of a submission")
    parser.add_argument("-o", "--output", metavar="SHEET", required=True, help="the sheet; one that is there gives way once the new one is whole")
    parser.add_argument("--progress", action="store_true", help="tell the time gone also where standard error is no terminal")
