"""The text of a submission: nine sections of hexadecimal words (docs/FORMAT.md), read and written at document 01's full bounds."""
import hashlib
import re

import pozsmeteg

from . import files, words
from .faults import BadInput, shown

SECTIONS = ("degree", "static", "fields", "states_c", "acc_c", "states_d", "acc_d", "nodes", "observations")
MEASURED = ("states_c", "acc_c", "states_d", "acc_d")
HEADER = re.compile(rb"([a-z_]+) (0|[1-9][0-9]{0,8})")


def width_of(section, degree):
    """How many words a line of a section has."""
    coefficients = (degree + 1) * (degree + 2)
    widths = (1, 2 + coefficients, 3 + coefficients, 7, 2, 7, 2, 1, 3)
    return widths[SECTIONS.index(section)]


# ---- reading


class Reader:
    """Goes through a text section by section; `at` is the next byte and `line` its line, from 1."""

    def __init__(self, path, text):
        self.path, self.text, self.at, self.line = path, text, 0, 1

    def fault(self, line, words_):
        return BadInput(f"{self.path}: line {line}: {words_}")

    def header(self, name):
        end = self.text.find(b"\n", self.at)
        head = self.text[self.at : end if end >= 0 else None]
        found = HEADER.fullmatch(head)
        if end < 0 or not found or found[1].decode() != name:
            found = shown(head) if head or end >= 0 else "the end of the file"
            raise self.fault(self.line, f"here should stand '{name}' and how many lines follow, but there is {found}")
        self.at, self.line = end + 1, self.line + 1
        return int(HEADER.fullmatch(head)[2])

    def section(self, name, degree):
        """The bits of a section's words."""
        count, width = self.header(name), width_of(name, degree)
        if name in ("degree", "static") and count != 1:
            raise self.fault(self.line - 1, f"the section '{name}' has one line, not {count}")
        rows = self.text[self.at : self.at + 17 * width * count]
        if not words.are_lines(rows, width, count):
            raise self.bad_row(name, count, width)
        self.at, self.line = self.at + len(rows), self.line + count
        return words.bits_in(rows)

    def bad_row(self, name, count, width):
        """The first line of a section that is not what it should be."""
        rows = self.text[self.at :].split(b"\n", count)
        for place, row in enumerate(rows[:count]):
            if not words.are_lines(row + b"\n", width, 1):
                if place + 1 == len(rows):
                    return self.fault(self.line + place, f"the text ends within '{name}', which announces {count} lines")
                words_ = "word of 16 digits" if width == 1 else f"line of {width} words of 16 digits"
                return self.fault(self.line + place, f"no {words_} (0 to 9, A to F, one space between) of '{name}': {shown(row)}")
        return self.fault(self.line + len(rows) - 1, f"the text ends within '{name}', which announces {count} lines")


def read(path):
    """A submission, and the digest of its text."""
    text = files.read(path)
    return parsed(path, text), digest_of(text)


def digest_of(text):
    return hashlib.sha256(text).hexdigest()


def parsed(path, text):
    if not text:
        raise BadInput(f"{path}: the file is empty")
    reader = Reader(path, text)
    degree = reader.section("degree", 2)[0]
    if not 2 <= degree <= 180:
        raise reader.fault(2, f"the degree is {degree}, not from 2 to 180 (refused 1)")
    lists = {name: reader.section(name, degree) for name in SECTIONS[1:]}
    if reader.at < len(text):
        raise reader.fault(reader.line, f"something stands behind the last section: {shown(text[reader.at:].split(bytes([10]))[0])}")
    return built(reader, degree, lists)


def built(reader, degree, lists):
    width = width_of("fields", degree)
    times, added = split(lists["fields"], width)
    observations = lists["observations"]
    return pozsmeteg.Submission(
        degree=degree,
        static=words.numbers_of(lists["static"]),
        field_times=words.numbers_of(times),
        added=words.numbers_of(added),
        **{name: keyed(lists[name], width_of(name, degree)) for name in MEASURED},
        nodes=words.numbers_of(lists["nodes"]),
        obs_times=words.numbers_of(observations[0::3]),
        obs_values=words.numbers_of(observations[1::3]),
        good=good_bytes(reader, observations[2::3]),
    )


def split(bits, width):
    """The first word of each line, and the others."""
    others = bits[:]
    del others[0::width]
    return bits[0::width], others


def keyed(bits, width):
    keys, values = split(bits, width)
    return pozsmeteg.Keyed(words.numbers_of(keys, "q"), words.numbers_of(values))


def good_bytes(reader, column):
    for place, value in enumerate(column):
        if value > 255:
            raise reader.fault(reader.line - len(column) + place, f"the good byte is {value}, not from 0 to 255")
    return bytearray(column.tolist())


# ---- writing


def parts_of(submission):
    """The text of a submission, section by section."""
    for name, bits in bits_by_section(submission):
        width = width_of(name, submission.degree)
        yield f"{name} {len(bits) // width}\n".encode("ascii") + words.lines_text(bits, width)


def bits_by_section(s):
    yield "degree", words.array("Q", [s.degree])
    yield "static", words.bits_of(s.static)
    yield "fields", with_first(words.bits_of(s.field_times), words.bits_of(s.added), width_of("fields", s.degree))
    for name in MEASURED:
        keys, values = getattr(s, name)
        yield name, with_first(words.bits_of(keys), words.bits_of(values), width_of(name, s.degree))
    yield "nodes", words.bits_of(s.nodes)
    yield "observations", words.joined([words.bits_of(s.obs_times), words.bits_of(s.obs_values), words.array("Q", list(s.good))])


def with_first(firsts, others, width):
    """Lines of a first word and the others, as one list."""
    return words.joined([firsts, *(others[place :: width - 1] for place in range(width - 1))])


def line_of(submission, section, row):
    """The line of the text, from 1, where a row of a section stands (from 0), or its header where no row is told."""
    line = 1
    for name, bits in counts(submission):
        if name == section:
            return line if row is None else line + 1 + row
        line += 1 + bits
    return None


def counts(s):
    """How many lines each section has."""
    lengths = (1, 1, len(s.field_times), *(len(getattr(s, name).keys) for name in MEASURED), len(s.nodes), len(s.obs_times))
    return zip(SECTIONS, lengths)


def of_sheet(path, sheet):
    """The submission that a sheet was worked out from; one with another digest is not it."""
    submission, digest = read(path)
    if sheet.digest is not None and sheet.digest != digest:
        raise BadInput(f"{path}: not the submission of {sheet.path}: its SHA-256 is {digest}, the sheet names {sheet.digest}")
    return submission
