"""Submissions for the tests: the bundled example as text, and made ones that are small and quick."""
import math
import os
import struct
from array import array

import pozsmeteg as p

ROOT = os.path.normpath(os.path.join(os.path.dirname(os.path.abspath(__file__)), "../../.."))
EXAMPLE = os.path.join(ROOT, "crates/sheet_program")
GM, RADIUS = 3.986004415e14, 6378136.3


def double(word):
    return struct.unpack(">d", bytes.fromhex(word))[0]


def bits(numbers):
    """The bit patterns of doubles, which tell −0.0 from +0.0."""
    return array("d", numbers).tobytes()


def sections(path):
    """The rows of each section of a submission's text, as words."""
    with open(path, encoding="ascii") as file:
        lines, found = file.read().splitlines(), {}
    at = 0
    while at < len(lines):
        name, count = lines[at].split(" ")
        found[name] = [line.split(" ") for line in lines[at + 1 : at + 1 + int(count)]]
        at += 1 + int(count)
    return found


def keyed(rows):
    return p.Keyed(array("q", [int(row[0], 16) for row in rows]), array("d", [double(w) for row in rows for w in row[1:]]))


def example():
    """The bundled example, crates/sheet_program/stdin."""
    s = sections(os.path.join(EXAMPLE, "stdin"))
    column = lambda name, k: array("d", [double(row[k]) for row in s[name]])
    return p.Submission(
        int(s["degree"][0][0], 16), array("d", map(double, s["static"][0])), column("fields", 0),
        array("d", [double(w) for row in s["fields"] for w in row[1:]]), *(keyed(s[n]) for n in ("states_c", "acc_c", "states_d", "acc_d")),
        column("nodes", 0), column("observations", 0), column("observations", 1), bytearray(int(row[2], 16) for row in s["observations"]))


def field(j2=-4.84165e-4, mass=1.0):
    """A point mass with J2 as a field of degree 2; both 0 for an added field that adds nothing."""
    out = array("d", bytes(8 * 14))
    out[:3] = array("d", [GM, RADIUS, mass])
    out[5] = j2
    return out


def orbit(keys, ahead):
    """Earth-fixed states of a circular polar orbit, so many seconds ahead of the first satellite."""
    radius, turn = 6.871e6, 7.292115e-5
    rate, out = math.sqrt(GM / radius**3), array("d")
    for k in keys:
        s, c = math.sin(rate * (k + ahead)), math.cos(rate * (k + ahead))
        sine, cosine = math.sin(turn * k), math.cos(turn * k)
        x, y, speed = radius * c * cosine, -radius * c * sine, -radius * rate * s
        out.extend([x, y, radius * s, speed * cosine + turn * y, -speed * sine - turn * x, radius * rate * c])
    return out


MADE = {}


def made(last=6000, nodes=(1900.5, 2500.5, 3100.5), gap=(2300, 2400)):
    """A submission of degree 2 with states at each even second, in which nothing is wrong; a gap ends a run before the second node."""
    keys = array("q", range(0, last, 2))
    if last not in MADE:
        MADE[last] = orbit(keys, 0.0), orbit(keys, 28.0)
    c, d = (array("d", states) for states in MADE[last])
    still, zeros = field(0.0, 0.0), array("d", bytes(8 * len(keys)))
    seen = array("d", [float(t) for t in range(0, last, 2) if not gap[0] <= t < gap[1]])
    return p.Submission(
        2, field(), array("d", [0.0, 12000.0]), still + still, p.Keyed(keys[:], c), p.Keyed(keys[:], zeros[:]), p.Keyed(keys[:], d),
        p.Keyed(keys[:], zeros[:]), array("d", nodes), seen, array("d", bytes(8 * len(seen))), bytearray(b"\1" * len(seen)))
