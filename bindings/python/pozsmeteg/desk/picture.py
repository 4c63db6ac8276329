"""A sheet as a picture (SVG): a panel for each column over calendar time, with what is final, what is blanked, the nodes and the horizon."""
import math

import pozsmeteg

from . import clock, files, sheets, texts
from .faults import BadInput
from .run import refusals_of
from .sheets import FINAL, OPEN

WIDTH, LEFT, RIGHT, TOP, PANEL, GAP = 1200, 104, 28, 112, 180, 18
COLOUR = {FINAL: "#1f4e9c", OPEN: "#d9730d", "blanked": "#8a8a8a", "node": "#555555", "horizon": "#b00020"}
DASHES = {"node": "2 4", "horizon": "8 4"}
BAND = "#dcdcdc"
FAR = 1e30  # what is beyond this is drawn at it, and less than its reciprocal is drawn as nothing
STEPS = (1, 2, 5, 10, 20, 30, 60, 120, 300, 600, 900, 1800, 3600, 7200, 10800, 21600, 43200, 86400)
UNITS = {"raw": (1e9, "nm/s²"), "detrended": (1e9, "nm/s²"), "passed": (1e9, "nm/s²"), "distance": (1e-3, "km")}


def time_step(span, parts):
    """A step of the clock that cuts a span into at most so many parts: from a second to a day, then whole days."""
    return next((step for step in STEPS if span / step <= parts), 86400 * math.ceil(span / 86400 / parts))


def value_step(span, parts):
    """A step of 1, 2 or 5 times a power of ten that cuts a span into at most so many parts."""
    power = 10.0 ** math.floor(math.log10(span / parts))
    return next(power * factor for factor in (1, 2, 5, 10) if span / (power * factor) <= parts * (1 + 1e-9))


def label(value, step):
    """A mark of the scale, short enough for the margin."""
    digits = max(0, -math.floor(math.log10(step) + 1e-9))
    return f"{value:.{digits}f}" if digits <= 5 and abs(value) < 1e6 else f"{value:.3g}"


def stretches_of(sheet):
    """Runs, cut where the last word changes: the first entry, the one after the last, and whether the run is blanked."""
    for first, end in sheet.runs():
        cuts = [first, *([sheet.final] if first < sheet.final < end else []), end]
        for a, b in zip(cuts, cuts[1:]):
            yield a, b, end - first <= sheets.SHORT


def thinned(points):
    """Of the points that fall on one half of a pixel the first, the lowest, the highest and the last, as a line shows no more."""
    columns = {}
    for x, y in points:
        columns.setdefault(round(2 * x), []).append((x, y))
    for column in columns.values():
        height = [y for x, y in column]
        kept = {0, height.index(min(height)), height.index(max(height)), len(column) - 1}
        yield from (column[place] for place in sorted(kept))


class Picture:
    """Adds up the elements of a picture. Nodes and the horizon are there where the submission was given."""

    def __init__(self, sheet, nodes=(), horizon=None):
        self.sheet, self.out, self.horizon = sheet, [], horizon
        ends = [sheet.times[0], sheet.times[-1]] + ([] if horizon is None else [horizon])
        margin = max(1.0, (max(ends) - min(ends)) * 0.01)
        self.first, self.last = min(ends) - margin, max(ends) + margin
        self.nodes = [z for z in nodes if self.first <= z <= self.last]
        panels = len(sheet.values)
        self.bottom = TOP + panels * PANEL + (panels - 1) * GAP

    def x(self, time):
        return LEFT + (WIDTH - LEFT - RIGHT) * (time - self.first) / (self.last - self.first)

    def text(self, x, y, words, anchor="middle", size=13, colour="#333333", turned=False):
        turn = f' transform="rotate(-90 {x:.1f} {y:.1f})"' if turned else ""
        self.out.append(f'<text x="{x:.1f}" y="{y:.1f}" text-anchor="{anchor}" font-size="{size}" fill="{colour}"{turn}>{words}</text>')

    def line(self, x1, y1, x2, y2, colour, dash="", width=1.0):
        dashes = f' stroke-dasharray="{dash}"' if dash else ""
        self.out.append(f'<line x1="{x1:.1f}" y1="{y1:.1f}" x2="{x2:.1f}" y2="{y2:.1f}" stroke="{colour}" stroke-width="{width}"{dashes}/>')

    def box(self, x, y, width, height, fill, kind=""):
        name = f' class="{kind}"' if kind else ""
        self.out.append(f'<rect x="{x:.1f}" y="{y:.1f}" width="{width:.1f}" height="{height:.1f}" fill="{fill}"{name}/>')

    # ---- parts of the picture

    def heading(self):
        sheet = self.sheet
        kept = len(sheet.rows)
        self.text(LEFT, 30, "Range-acceleration residuals", "start", 18)
        self.text(LEFT, 54, f"{kept} entries, {sheet.final} final, {kept - sheet.final} may still move", "start")
        span = f"{clock.calendar(sheet.times[0])} to {clock.calendar(sheet.times[-1])}, GPS time"
        self.text(WIDTH - RIGHT, 30, span, "end")
        if self.horizon is not None:
            self.text(WIDTH - RIGHT, 54, f"horizon {clock.precise(self.horizon)}, {self.horizon:.3f} s", "end", colour=COLOUR["horizon"])

    def legend(self):
        names = {FINAL: "final", OPEN: "may still move", "blanked": f"blanked: a run of {sheets.SHORT} entries or fewer"}
        names.update({"node": "node"} if self.nodes else {}, **({"horizon": "horizon"} if self.horizon is not None else {}))
        x = LEFT
        for kind, words in names.items():
            if kind == "blanked":
                self.box(x, 72, 22, 14, BAND)
            self.line(x, 79, x + 22, 79, COLOUR[kind], DASHES.get(kind, ""), 1.6 if kind in DASHES else 3)
            self.text(x + 28, 84, words, "start")
            x += 28 + 7.2 * len(words) + 26

    def marks(self):
        """The nodes and the horizon, which is one of them, over all panels."""
        for z in self.nodes:
            kind = "horizon" if z == self.horizon else "node"
            self.line(self.x(z), TOP, self.x(z), self.bottom, COLOUR[kind], DASHES[kind], 1.6 if kind == "horizon" else 1.0)

    def panel(self, place, name):
        top = TOP + place * (PANEL + GAP)
        factor, unit = UNITS[name]
        values = [min(max(value * factor, -FAR), FAR) for value in self.sheet.values[place]]
        low, high = limits(values, name)

        def y(value):
            return top + PANEL * (high - value) / (high - low)

        if name == "passed":
            self.blanked(top)
        self.box(LEFT, top, WIDTH - LEFT - RIGHT, PANEL, 'none" stroke="#999999')
        self.scale(low, high, y)
        for first, end, blanked in stretches_of(self.sheet):
            kind = "blanked" if blanked and name == "passed" else self.sheet.word(first)
            self.curve([(self.x(self.sheet.times[i]), y(values[i])) for i in range(first, end)], COLOUR[kind])
        self.text(26, top + PANEL / 2, f"{name} ({unit})", turned=True)

    def blanked(self, top):
        """Grey behind the runs that are too short to be passed through the band."""
        for first, end in self.sheet.runs():
            if end - first <= sheets.SHORT:
                x1, x2 = self.x(self.sheet.times[first]), self.x(self.sheet.times[end - 1])
                self.box(x1 - 1.0, top, x2 - x1 + 2.0, PANEL, BAND, "blanked")

    def scale(self, low, high, y):
        step = value_step(high - low, 7)
        for n in range(math.ceil(low / step), math.floor(high / step) + 1):
            self.line(LEFT, y(n * step), WIDTH - RIGHT, y(n * step), "#dddddd" if n else "#aaaaaa")
            self.text(LEFT - 8, y(n * step) + 4, label(n * step, step), "end", 12)

    def curve(self, points, colour):
        drawn = list(thinned(points))
        if len(drawn) == 1:  # a point of its own is drawn as a dash
            drawn = [(drawn[0][0] - 1.0, drawn[0][1]), (drawn[0][0] + 1.0, drawn[0][1])]
        places = " ".join(f"{x:.1f},{y:.1f}" for x, y in drawn)
        self.out.append(f'<polyline points="{places}" fill="none" stroke="{colour}" stroke-width="0.9"/>')

    def axis(self):
        """Calendar time above, GPS seconds below, at the same marks."""
        step = time_step(self.last - self.first, 8.5)
        noon = 43200  # GPS seconds count from a noon
        n = math.ceil((self.first + noon) / step)
        while n * step - noon <= self.last:
            time = n * step - noon
            x = self.x(time)
            self.line(x, self.bottom, x, self.bottom + 5, "#333333")
            x = min(max(x, LEFT - 36), WIDTH - RIGHT - 44)
            self.text(x, self.bottom + 20, clock.calendar(time, "%Y-%m-%d %H:%M" if step >= 60 else "%H:%M:%S"), size=12)
            self.text(x, self.bottom + 37, f"{time} s", size=12, colour="#777777")
            n += 1
        words = "GPS time, and below it GPS seconds past 2000-01-01 12:00; no leap seconds are taken off"
        self.text((LEFT + WIDTH - RIGHT) / 2, self.bottom + 60, words)

    def whole(self):
        height = self.bottom + 76
        self.box(0, 0, WIDTH, height, "white")
        self.heading()
        self.legend()
        for place, name in enumerate(self.sheet.columns()):
            self.panel(place, name)
        self.marks()
        self.axis()
        head = f'<svg xmlns="http://www.w3.org/2000/svg" width="{WIDTH}" height="{height}" viewBox="0 0 {WIDTH} {height}" font-family="sans-serif">'
        return "\n".join([head, *self.out, "</svg>"]) + "\n"


def limits(values, name):
    """The lowest and the highest value of a panel: residuals are drawn about zero."""
    if name == "distance":
        low, high = min(values), max(values)
        margin = max((high - low) * 0.06, abs(high) * 1e-9, 1e-9)
        return low - margin, high + margin
    most = max(abs(value) for value in values)
    reach = 1.08 * most if most > 1.0 / FAR else 1.0
    return -reach, reach


def run(options):
    sheet = sheets.read(options.sheet)
    if not sheet.rows:
        raise BadInput(f"{options.sheet}: a sheet without entries has no picture")
    if options.submission is None:
        drawn = Picture(sheet)
    else:
        submission = texts.of_sheet(options.submission, sheet)
        with refusals_of(options.submission, submission):
            drawn = Picture(sheet, submission.nodes, pozsmeteg.horizon(submission))
    files.keep_apart(options.output, options.sheet, options.submission)
    files.write(options.output, [drawn.whole().encode("utf-8")])
    return 0


def register(add):
    parser = add(
        "picture", run, "a picture (SVG) of the raw, detrended and passed residuals over time; with the submission also nodes and horizon",
        "desk picture day.sheet day.txt -o day.svg", "desk picture day.sheet -o day.svg")
    parser.add_argument("sheet", metavar="SHEET")
    parser.add_argument("submission", metavar="SUBMISSION", nargs="?", help="what the sheet was worked out from: tells nodes and horizon")
    parser.add_argument("-o", "--output", metavar="FILE.svg", required=True)
