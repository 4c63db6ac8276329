"""Sheets: two head lines with version and digest, `kept K final F`, and K entries of four or five words (docs/FORMAT.md)."""
import math
import re
from array import array

from . import files, texts, words
from .faults import BadInput, shown

FINAL, OPEN = "final", "may still move"
COLUMNS = ("raw", "detrended", "passed", "distance")
STEP = 3.0  # a longer step between neighbouring epochs begins a new run
LATEST = 2**31
SHORT = 64  # a run of so many epochs or fewer is blanked: its passed values are +0.0
VERSION = re.compile(r"sheet ([0-9]{1,9}) pozsmeteg ([0-9A-Za-z.+-]+)")
DIGEST = re.compile("submission sha256 ([0-9a-f]{64})")
HEAD = re.compile("kept (0|[1-9][0-9]{0,8}) final (0|[1-9][0-9]{0,8})")


class Sheet:
    """A sheet as it was read: `rows` of words, `times` and `values` (a list for each column) as doubles, and who made it from what.

    `digest` is that of the submission and None where the sheet has no head lines; `own` is that of the sheet itself."""

    def __init__(self, path, text):
        self.path, self.own = path, texts.digest_of(text)
        lines = whole_lines(path, text)
        self.version, self.digest, start = head_lines(path, lines)
        kept, self.final = counts_in(path, lines, start)
        entries = lines[start + 1 :]
        if len(entries) != kept:
            raise BadInput(f"{path}: not whole: line {start + 1} announces {kept} entries, and there are {len(entries)}")
        width = words_in(path, entries, start + 2)
        self.rows = [tuple(entry.split(" ")) for entry in entries]
        bits = words.bits_in("".join(entries).encode("ascii"))
        self.times, *self.values = [words.numbers_of(bits[place::width]) for place in range(width)] if entries else [array("d")] * 4
        check_numbers(path, self.times, self.values, start + 2)

    def word(self, place):
        return FINAL if place < self.final else OPEN

    def columns(self):
        return COLUMNS[: len(self.values)]

    def runs(self):
        """Pairs of a run's first entry and the one after its last."""
        cuts = [i for i in range(1, len(self.times)) if self.times[i] - self.times[i - 1] > STEP]
        return list(zip([0, *cuts], [*cuts, len(self.times)])) if self.times else []


def read(path):
    return Sheet(path, files.read(path))


def whole_lines(path, text):
    """The lines of a text, at least one, each ended by a line feed."""
    if not text:
        raise BadInput(f"{path}: the file is empty")
    *lines, rest = text.split(b"\n")
    if rest:
        raise BadInput(f"{path}: line {len(lines) + 1}: not whole: the last line has no end: {shown(rest)}")
    try:
        return text[:-1].decode("ascii").split("\n")
    except UnicodeDecodeError as error:
        line = text.count(b"\n", 0, error.start) + 1
        raise BadInput(f"{path}: line {line}: a byte that is no ASCII: {shown(lines[line - 1])}") from error


def head_lines(path, lines):
    """Version, digest and how many lines they take: none in a sheet of sheet_program."""
    if not lines[0].startswith("sheet "):
        return None, None, 0
    version = VERSION.fullmatch(lines[0])
    if not version:
        raise BadInput(f"{path}: line 1: no head of a sheet: {shown(lines[0])}")
    if version[1] != "1":
        raise BadInput(f"{path}: line 1: a sheet of format {version[1]}, and this version reads format 1: {shown(lines[0])}")
    digest = DIGEST.fullmatch(lines[1]) if len(lines) > 1 else None
    if not digest:
        raise BadInput(f"{path}: line 2: here should stand the digest of the submission, but there is {shown(*lines[1:2] or ['nothing'])}")
    return version[2], digest[1], 2


def counts_in(path, lines, start):
    head = lines[start] if start < len(lines) else ""
    if head.startswith("refused "):
        raise BadInput(f"{path}: line {start + 1}: no sheet, the submission was refused: {shown(head)}")
    counts = HEAD.fullmatch(head)
    if not counts:
        raise BadInput(f"{path}: line {start + 1}: no sheet: here should stand 'kept K final F', but there is {shown(head)}")
    kept, final = map(int, counts.groups())
    if final > kept:
        raise BadInput(f"{path}: line {start + 1}: no sheet: {final} final entries among {kept} kept")
    return kept, final


def words_in(path, entries, line):
    """Four or five words, in all entries alike."""
    width = 5 if entries and len(entries[0]) == 5 * 17 - 1 else 4
    for place, entry in enumerate(entries):
        if not words.are_lines(entry.encode("ascii") + b"\n", width, 1):
            wanted = "four or five words" if place == 0 else f"{'five' if width == 5 else 'four'} words, as the first has"
            raise BadInput(f"{path}: line {line + place}: no entry of {wanted}: {shown(entry)}")
    return width


def check_numbers(path, times, values, line):
    """Times rise and are within their bounds, and every value is a number, as the engine promises."""
    before = -1.0
    for place, time in enumerate(times):
        if not (before < time and 0.0 <= time <= LATEST):
            why = "not behind the one before" if 0.0 <= time <= LATEST else f"not from 0 to {LATEST}"
            raise BadInput(f"{path}: line {line + place}: no sheet: the time {time!r} is {why}")
        before = time
    for name, column in zip(COLUMNS, values):
        for place, value in enumerate(column):
            if not math.isfinite(value):
                raise BadInput(f"{path}: line {line + place}: no sheet: the {name} value {value!r} is no finite number")


def parts_of(sheet, digest, version):
    """The text of a sheet that the engine answered: all its lists but the count are columns."""
    columns = [words.bits_of(column) for column in sheet if not isinstance(column, int)]
    yield f"sheet 1 pozsmeteg {version}\nsubmission sha256 {digest}\nkept {len(columns[0])} final {sheet.final}\n".encode("ascii")
    yield words.lines_text(words.joined(columns), len(columns))


def exact(row):
    """An entry for copying: each number as the shortest decimal that reads back to the same bits, then the words themselves."""
    return " ".join([*(repr(words.double_of(word)) for word in row), *row])
