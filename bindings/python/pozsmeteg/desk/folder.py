"""A submission as a folder of decimal tables, one a list (docs/FORMAT.md), and back."""
import math
import os
import shutil
import tempfile
from array import array

import pozsmeteg

from . import csvs, files, texts
from .faults import BadInput, NoAccess, reason

DEGREE = {"degree": csvs.whole, "gm": csvs.number, "radius": csvs.number}
FIELDS = {"time": csvs.time, "gm": csvs.number, "radius": csvs.number, "file": csvs.file_name}
COEFFICIENTS = {"n": csvs.whole, "m": csvs.whole, "C": csvs.number, "S": csvs.number}
STATES = {"second": csvs.second, **{name: csvs.number for name in ("x", "y", "z", "vx", "vy", "vz")}}
VALUES = {"second": csvs.second, "value": csvs.number}
NODES = {"time": csvs.time}
OBSERVATIONS = {"time": csvs.time, "value": csvs.number, "good": csvs.byte}
KEYED = {"states_c": STATES, "acc_c": VALUES, "states_d": STATES, "acc_d": VALUES}


# ---- from tables


def read(folder):
    """The submission that a folder has."""
    if not os.path.isdir(folder):
        raise NoAccess(f"{folder}: cannot be read: it is no folder")

    def table(name, columns):
        return csvs.Table(os.path.join(folder, f"{name}.csv"), columns)

    degree, gm, radius = the_degree(table("degree", DEGREE))
    static = field(table("static", COEFFICIENTS), degree, gm, radius)
    times, added = fields(folder, table("fields", FIELDS), degree)
    observations = [values for line, values in table("observations", OBSERVATIONS).rising()]
    return pozsmeteg.Submission(
        degree=degree,
        static=static,
        field_times=times,
        added=added,
        **{name: keyed(table(name, columns)) for name, columns in KEYED.items()},
        nodes=array("d", (values[0] for line, values in table("nodes", NODES).rising())),
        obs_times=array("d", (row[0] for row in observations)),
        obs_values=array("d", (row[1] for row in observations)),
        good=bytearray(row[2] for row in observations),
    )


def the_degree(table):
    rows = list(table.rows())
    if len(rows) != 1:
        raise BadInput(f"{table.path}: one row is needed behind the header, and there are {len(rows)}")
    (line, (degree, gm, radius)), = rows
    if not 2 <= degree <= 180:
        raise table.fault(line, f"the degree {degree} is not from 2 to 180")
    return degree, gm, radius


def fields(folder, table, degree):
    """The times of the added fields, and the fields end to end."""
    times, added = array("d"), array("d")
    for line, (time, gm, radius, name) in table.rising():
        times.append(time)
        added.extend(field(csvs.Table(os.path.join(folder, name), COEFFICIENTS), degree, gm, radius))
    return times, added


def field(table, degree, gm, radius):
    """GM, radius, all C, all S; each pair of degree and order stands once in the table, in any order."""
    count = pozsmeteg.places(degree)
    numbers, seen = array("d", [gm, radius, *[0.0] * (2 * count)]), bytearray(count)
    for line, (n, m, c, s) in table.rows():
        if not 0 <= m <= n <= degree:
            raise table.fault(line, f"n {n}, m {m} is not in a field of degree {degree}")
        place = n * (n + 1) // 2 + m
        if seen[place]:
            raise table.fault(line, f"n {n}, m {m} stands twice")
        seen[place], numbers[2 + place], numbers[2 + count + place] = 1, c, s
    if 0 in seen:
        n, m = degree_and_order(seen.index(0))
        raise BadInput(f"{table.path}: n {n}, m {m} is missing: a field of degree {degree} has {count} rows, and there are {sum(seen)}")
    return numbers


def degree_and_order(place):
    n = (math.isqrt(8 * place + 1) - 1) // 2
    return n, place - n * (n + 1) // 2


def keyed(table):
    keys, values = array("q"), array("d")
    for line, (key, *numbers) in table.rising():
        keys.append(key)
        values.extend(numbers)
    return pozsmeteg.Keyed(keys, values)


# ---- to tables


def write(folder, submission, path):
    """Puts a submission's tables into a new folder, whole or not at all. `path` is where the submission was read from."""
    check_numbers(submission, path)
    if os.path.lexists(folder) and not (os.path.isdir(folder) and not os.listdir(folder)):
        raise BadInput(f"{folder}: the tables go into a new folder or an empty one, and this is neither")
    target = os.path.realpath(folder)
    try:
        beside = tempfile.mkdtemp(prefix=f".{os.path.basename(target)[:100]}.", suffix=".part", dir=os.path.dirname(target))
        try:
            os.chmod(beside, files.allowed(0o777))
            for name, columns, rows in tables(submission):
                files.replace(os.path.join(beside, name), csvs.parts_of(columns, rows))
            os.rename(beside, target)
        except BaseException:
            shutil.rmtree(beside, ignore_errors=True)
            raise
    except OSError as error:
        raise NoAccess(f"{folder}: cannot be written: {reason(error)}") from error


def check_numbers(submission, path):
    """A table has decimal numbers only: no infinity, nothing that is no number, no key beyond the bounds of a whole number."""
    for section, numbers, width in lists(submission):
        for place, value in enumerate(numbers):
            if not math.isfinite(value):
                row = place // width
                raise BadInput(f"{path}: line {texts.line_of(submission, section, row)}: {value} in '{section}' cannot stand in a table")


def lists(s):
    """Each list of doubles with the section that has it, and how many of its numbers a row has."""
    size = len(s.static)
    yield from (("static", s.static, size), ("fields", s.field_times, 1), ("fields", s.added, size), ("nodes", s.nodes, 1))
    for name in texts.MEASURED:
        yield name, getattr(s, name).values, len(KEYED[name]) - 1
    yield from (("observations", s.obs_times, 1), ("observations", s.obs_values, 1))


def tables(s):
    """Name, columns and rows of each table."""
    yield "degree.csv", DEGREE, [(s.degree, s.static[0], s.static[1])]
    yield "static.csv", COEFFICIENTS, coefficients(s.static)
    size = len(s.static)
    added = [s.added[size * k : size * (k + 1)] for k in range(len(s.field_times))]
    names = [f"field_{k:02d}.csv" for k in range(1, len(added) + 1)]
    yield "fields.csv", FIELDS, [(time, f[0], f[1], name) for time, f, name in zip(s.field_times, added, names)]
    for name, numbers in zip(names, added):
        yield name, COEFFICIENTS, coefficients(numbers)
    for name, columns in KEYED.items():
        yield f"{name}.csv", columns, keyed_rows(*getattr(s, name), len(columns) - 1)
    yield "nodes.csv", NODES, ([time] for time in s.nodes)
    yield "observations.csv", OBSERVATIONS, zip(s.obs_times, s.obs_values, s.good)


def coefficients(numbers):
    count = len(numbers) // 2 - 1
    for place in range(count):
        yield (*degree_and_order(place), numbers[2 + place], numbers[2 + count + place])


def keyed_rows(keys, values, width):
    for place, key in enumerate(keys):
        yield (key, *values[width * place : width * (place + 1)])


# ---- commands


def make(options):
    files.try_place(options.output)
    files.write(options.output, texts.parts_of(read(options.folder)))
    return 0


def show(options):
    submission, digest = texts.read(options.submission)
    write(options.folder, submission, options.submission)
    return 0


def register(add):
    parser = add(
        "submission", make, "the text of a submission from a folder of decimal tables",
        "desk submission day -o day.txt", "desk submission 2026-11-17/ -o 2026-11-17.txt")
    parser.add_argument("folder", metavar="FOLDER", help="a folder with degree.csv, static.csv, fields.csv and so on (docs/FORMAT.md)")
    parser.add_argument("-o", "--output", metavar="FILE", required=True, help="the text of the submission")
    parser = add(
        "show", show, "a folder of decimal tables from the text of a submission; each number reads back to the same bits",
        "desk show day.txt day")
    parser.add_argument("submission", metavar="FILE", help="the text of a submission")
    parser.add_argument("folder", metavar="FOLDER", help="a new folder, or an empty one")
