"""Numbers on the command line."""
import math

from .faults import BadInput


def number(name):
    """Reads a finite decimal."""

    def read(word):
        try:
            value = float(word)
        except ValueError:
            value = math.nan
        if not math.isfinite(value):
            raise BadInput(f"{name} '{word}' is no number")
        return value

    return read


def count(name):
    """Reads a whole number from 1 on."""

    def read(word):
        if not (word.isascii() and word.isdigit() and 1 <= int(word[:18])):
            raise BadInput(f"{name} '{word}' is no whole number from 1 on")
        return int(word[:18])

    return read
