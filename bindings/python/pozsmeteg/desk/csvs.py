"""Decimal tables: a header row and rows of cells, separated by commas or by white space (docs/FORMAT.md)."""
import math
import re

from . import files
from .faults import BadInput, shown

NUMBER = re.compile(r"[+-]?(?:[0-9]+(?:\.[0-9]*)?|\.[0-9]+)(?:[eE][+-]?[0-9]+)?")
WHOLE = re.compile(r"[+-]?[0-9]{1,18}")
NAME = re.compile(r"[A-Za-z0-9._-]+")
LATEST = 2**31


def number(cell):
    """A decimal, as the nearest double."""
    if not NUMBER.fullmatch(cell):
        raise ValueError("is no decimal number")
    value = float(cell)
    if math.isinf(value):
        raise ValueError("is beyond the largest double")
    return value


def whole(cell):
    if not WHOLE.fullmatch(cell):
        raise ValueError("is no whole number")
    return int(cell)


def bounded(read, least, most):
    """A cell whose value has bounds."""

    def cell_of(cell):
        value = read(cell)
        if not least <= value <= most:
            raise ValueError(f"is not from {least} to {most}")
        return value

    return cell_of


def file_name(cell):
    if not NAME.fullmatch(cell):
        raise ValueError("is no plain file name")
    return cell


second = bounded(whole, 0, LATEST)
time = bounded(number, 0, LATEST)
byte = bounded(whole, 0, 255)


class Table:
    """A table in a file: its columns with what reads a cell of each, in the order in which `rows` tells them."""

    def __init__(self, path, columns):
        self.path, self.columns = path, columns
        text = files.read(path).decode("utf-8-sig", "replace")  # without the byte-order mark
        self.lines = text.replace("\r\n", "\n").split("\n")

    def fault(self, line, words):
        return BadInput(f"{self.path}: line {line}: {words}")

    def cells(self, line):
        """The cells of a line; the header decides what separates them."""
        return [cell.strip() for cell in line.split(",")] if self.commas else line.split()

    def header(self):
        """The line of the header row, and the place of each column in it."""
        for line, text in enumerate(self.lines, 1):
            if text.strip():
                self.commas = "," in text
                return line, self.places(line, self.cells(text))
        raise BadInput(f"{self.path}: there is no header row: {','.join(self.columns)}")

    def places(self, line, names):
        for name in names:
            if name not in self.columns or names.count(name) > 1:
                twice = "stands twice" if name in self.columns else "is none of this table"
                raise self.fault(line, f"the column {shown(name)} {twice}; the header row is {','.join(self.columns)}")
        for name in self.columns:
            if name not in names:
                raise self.fault(line, f"the column '{name}' is missing in {shown(self.lines[line - 1])}; the header row is {','.join(self.columns)}")
        return [names.index(name) for name in self.columns]

    def rows(self):
        """The line and the values of each row, which are in the order of the columns; empty lines are passed over."""
        start, places = self.header()
        readers = list(self.columns.values())
        for line, text in enumerate(self.lines[start:], start + 1):
            if not text.strip():
                continue
            cells = self.cells(text)
            if len(cells) != len(readers):
                raise self.fault(line, f"{len(readers)} cells are needed ({','.join(self.columns)}), and there are {len(cells)}: {shown(text)}")
            try:
                yield line, [read(cells[place]) for read, place in zip(readers, places)]
            except ValueError:
                raise self.bad_cell(line, cells, places) from None

    def bad_cell(self, line, cells, places):
        for (name, read), place in zip(self.columns.items(), places):
            try:
                read(cells[place])
            except ValueError as why:
                return self.fault(line, f"{name} {shown(cells[place])} {why}")
        return self.fault(line, "no row")

    def rising(self):
        """As `rows`; the first column has to rise."""
        before = None
        for line, values in self.rows():
            if before is not None and not before < values[0]:
                name = next(iter(self.columns))
                raise self.fault(line, f"{name} {values[0]!r} is not above the one before, {before!r}")
            before = values[0]
            yield line, values


def parts_of(columns, rows):
    """The text of a table, each double as the shortest decimal that reads back to the same bits."""
    yield (",".join(columns) + "\n").encode("ascii")
    for row in rows:
        yield (",".join(cell if isinstance(cell, str) else repr(cell) for cell in row) + "\n").encode("ascii")
