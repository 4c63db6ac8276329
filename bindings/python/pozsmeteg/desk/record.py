"""The record of years: the final entries of sheets, exact, each with the sheet and the submission that it came from (docs/FORMAT.md).

A record is the line `record 1 pozsmeteg VERSION`, a block for each sheet that brought something new, and a last line with the count of entries and
the digest of all that stands before it. What was written once is never changed: a new block comes behind the old ones. A record may be far larger
than memory, so of the old blocks only those are looked into that cover a time of the sheet at hand; the digest speaks for the others.
"""
import contextlib
import fcntl
import hashlib
import math
import os
import re
import time

import pozsmeteg

from . import arguments, clock, files, sheets, words
from .faults import BadInput, Differs, NoAccess, reason, shown

HEAD = re.compile(rb"record ([0-9]{1,9}) pozsmeteg ([0-9A-Za-z.+-]+)\n")
BLOCK = re.compile(
    rb"sheet ([0-9a-f]{64}) submission ([0-9a-f]{64}) from ([0-9A-F]{16}) to ([0-9A-F]{16}) new ([1-9][0-9]{0,8}) bytes ([1-9][0-9]{0,12})\n")
END = re.compile(rb"end ([1-9][0-9]{0,11}) sha256 ([0-9a-f]{64})\n")
CHUNK = 1 << 20
LONGEST = 1000  # bytes of a head line; entries are read by the block


# ---- reading


class Record:
    """What a record has to say about the seconds from `first` to `last`: `entries`, the words of each entry by the word of its time, and
    `spans`, the seconds that the sheets of these blocks covered, as pairs. `count` is how many entries there are in all, `size` how many bytes
    stand before the last line, and `digest` is of these."""

    def __init__(self, path, first, last):
        self.path, self.first, self.last = path, first, last
        self.entries, self.spans, self.count, self.size, self.line = {}, [], 0, 0, 0
        self.digest = hashlib.sha256()

    def fault(self, words_, line=None):
        return BadInput(f"{self.path}: line {line or self.line}: {words_}")

    def take(self, text):
        self.digest.update(text)
        self.size += len(text)

    def scan(self, file):
        """Goes through the file, block by block, to its last line."""
        self.room = os.fstat(file.fileno()).st_size
        self.head(file.readline(LONGEST))
        while True:
            line = file.readline(LONGEST)
            self.line += 1
            if line.startswith(b"end "):
                return self.end(line, file.read(1))
            self.block(line, file)

    def head(self, line):
        self.line = 1
        found = HEAD.fullmatch(line)
        if not found:
            raise self.fault(f"no record: here should stand 'record 1 pozsmeteg VERSION', but there is {shown(line)}")
        if found[1] != b"1":
            raise self.fault(f"a record of format {found[1].decode()}, and this version reads format 1: {shown(line)}")
        self.take(line)

    def block(self, line, file):
        found = BLOCK.fullmatch(line)
        if not found:
            what = f"but there is {shown(line)}" if line else "but the file ends"
            raise self.fault(f"not whole: here should stand the head of a block or the last line, {what}")
        new, size = int(found[5]), int(found[6])
        text = file.read(size) if size <= self.room else b""
        if len(text) != size or text.count(b"\n") != new or not text.endswith(b"\n"):
            raise self.fault(f"not whole: the block announces {new} entries in {size} bytes, and they do not follow")
        self.take(line)
        self.take(text)
        first, last = (words.double_of(word.decode()) for word in found.group(3, 4))
        if first <= self.last and self.first <= last:
            self.spans.append((first, last))
            for place, entry in enumerate(text.split(b"\n")[:-1], 1):
                self.entry(self.line + place, entry)
        self.line, self.count = self.line + new, self.count + new

    def entry(self, line, text):
        """Decimals, and the same numbers as words."""
        cells = text.decode("ascii", "replace").split(" ")
        row = tuple(cells[len(cells) // 2 :])
        good = len(row) in (4, 5) and words.are_lines(" ".join(row).encode("utf-8") + b"\n", len(row), 1)
        if not good or sheets.exact(row).encode("ascii") != text:
            raise self.fault(f"no entry, as decimals and the same as words: {shown(text)}", line)
        if row[0] in self.entries:
            raise self.fault(f"the entry at {cells[0]} stands twice", line)
        self.entries[row[0]] = row

    def end(self, line, behind):
        found = END.fullmatch(line)
        if not found or behind:
            raise self.fault(f"the last line should count the entries and end the file, but there is {shown(line)}")
        if int(found[1]) != self.count:
            raise self.fault(f"the last line counts {int(found[1])} entries, and there are {self.count}")
        if found[2].decode() != self.digest.hexdigest():
            raise self.fault(f"the record was changed by other hands: its SHA-256 is not the one in its last line, {found[2].decode()}")


def read(path, sheet):
    """What a record says about the times of a sheet's final entries."""
    span = (sheet.times[0], sheet.times[sheet.final - 1]) if sheet.final else (math.inf, -math.inf)
    record = Record(path, *span)
    try:
        with open(path, "rb") as file:
            record.scan(file)
    except OSError as error:
        raise NoAccess(f"{path}: cannot be read: {reason(error)}") from error
    return record


def read_or_new(path, sheet):
    """The record at a path, or an empty one where there is no file."""
    return read(path, sheet) if os.path.lexists(path) else Record(path, -math.inf, math.inf)


# ---- record and sheet side by side


def final_sheet(path):
    """A sheet that tells where it came from."""
    sheet = sheets.read(path)
    if sheet.digest is None:
        raise BadInput(f"{path}: line 1: a sheet without version and digest cannot go into a record; `desk sheet` writes them")
    return sheet


def differences(record, sheet):
    """Sentences: a value with other bits; a final entry that only one of the two has, at a time that both cover."""
    final = sheet.rows[: sheet.final]
    if not final:
        return
    times = {row[0] for row in final}
    for place, row in enumerate(final):
        if row[0] in record.entries:
            yield from moved(record, sheet, place, row)
        elif any(first <= sheet.times[place] <= last for first, last in record.spans):
            yield f"{sheet.path}: entry {place + 1}, {named(row[0])}, is not in {record.path}, which is whole at that time"
    for word in record.entries:
        if word not in times and record.first <= words.double_of(word) <= record.last:
            yield f"{record.path}: the entry at {named(word)} is not among the final ones of {sheet.path}"


def moved(record, sheet, place, row):
    for name, there, here in zip(sheets.COLUMNS, record.entries[row[0]][1:], row[1:]):
        if there != here:
            yield (f"{sheet.path}: entry {place + 1}, {named(row[0])}: {name} is {both(here)}, and {record.path} has {both(there)}")


def both(word):
    return f"{words.double_of(word)!r} ({word})"


def named(word):
    seconds = words.double_of(word)
    return f"{seconds!r} s ({clock.precise(seconds)} GPS time)"


def new_rows(record, sheet):
    return [row for row in sheet.rows[: sheet.final] if row[0] not in record.entries]


def refuse_differences(record, sheet):
    found = list(differences(record, sheet))
    if found:
        more = f"; {len(found) - 1} more differ" if len(found) > 1 else ""
        raise Differs(f"{found[0]}{more}")


# ---- writing


def longer(record, sheet, rows):
    """The text of a record with a block more, part by part."""
    digest = hashlib.sha256()
    for part in old_parts(record):
        digest.update(part)
        yield part
    if record.size and digest.digest() != record.digest.digest():
        raise NoAccess(f"{record.path}: changed by other hands while it was read")
    entries = "".join(sheets.exact(row) + "\n" for row in rows)
    span = f"from {sheet.rows[0][0]} to {sheet.rows[sheet.final - 1][0]}"
    block = f"sheet {sheet.own} submission {sheet.digest} {span} new {len(rows)} bytes {len(entries)}\n{entries}".encode("ascii")
    digest.update(block)
    yield block
    yield f"end {record.count + len(rows)} sha256 {digest.hexdigest()}\n".encode("ascii")


def old_parts(record):
    """All of the old record but its last line; the first line of a new one."""
    if not record.size:
        yield f"record 1 pozsmeteg {pozsmeteg.__version__}\n".encode("ascii")
        return
    with open(record.path, "rb") as file:
        left = record.size
        while left:
            part = file.read(min(CHUNK, left))
            if not part:
                return
            left -= len(part)
            yield part


@contextlib.contextmanager
def locked(path, wait):
    """One append at a time. The system lets the lock go when its process ends, in whatever way; the empty file beside the record may stay."""
    target = os.path.realpath(path)
    name = os.path.join(os.path.dirname(target), f".{os.path.basename(target)}.lock")
    number = lock_file(name)
    try:
        wait_for(number, path, wait)
        yield
    finally:
        os.close(number)


def lock_file(name):
    """Opens the file that is locked; another operator's may be open for reading only, which is enough."""
    try:
        try:
            return os.open(name, os.O_RDWR | os.O_CREAT | os.O_CLOEXEC, 0o666)
        except PermissionError:
            if not os.path.exists(name):
                raise
            return os.open(name, os.O_RDONLY | os.O_CLOEXEC)
    except OSError as error:
        raise NoAccess(f"{name}: cannot be written: {reason(error)}") from error


def wait_for(number, path, wait):
    until = time.monotonic() + wait
    while True:
        try:
            fcntl.flock(number, fcntl.LOCK_EX | fcntl.LOCK_NB)
            return
        except BlockingIOError:
            if time.monotonic() > until:
                raise NoAccess(f"{path}: another append has been at work for {wait:g} s; try again when it is done") from None
            time.sleep(0.05)
        except OSError as error:
            raise NoAccess(f"{path}: cannot be locked: {reason(error)}") from error


def append(options):
    sheet = final_sheet(options.sheet)
    with locked(options.record, options.wait):
        record = read_or_new(options.record, sheet)
        refuse_differences(record, sheet)
        rows = new_rows(record, sheet)
        if rows:
            files.write(options.record, longer(record, sheet, rows))
    print(f"{len(rows)} new entries, {sheet.final - len(rows)} there already, {record.count + len(rows)} in all")
    return 0


def check(options):
    sheet = final_sheet(options.sheet)
    record = read(options.record, sheet)
    refuse_differences(record, sheet)
    rows = new_rows(record, sheet)
    print(f"{sheet.final - len(rows)} final entries are in the record, every bit the same; {len(rows)} are new")
    return 0


def register(add):
    whole = add(
        "record", None, "the record of years: the final entries of sheets, exact",
        "desk record append record.txt day.sheet", "desk record check record.txt day.sheet")
    tasks = whole.add_subparsers(metavar="TASK", required=True)
    parser = add(
        "append", append, "adds the final entries of a sheet that the record does not have; changes nothing where a value differs in a bit (status 1)",
        "desk record append record.txt day.sheet", among=tasks)
    both_paths(parser)
    parser.add_argument("--wait", metavar="SECONDS", type=arguments.number("--wait"), default=60.0, help="how long to wait for another append to end (default: 60)")
    parser = add(
        "check", check, "whether the final entries of a sheet that the record has are the same, every bit (status 1 if not), and how many are new",
        "desk record check record.txt day.sheet", among=tasks)
    both_paths(parser)


def both_paths(parser):
    parser.add_argument("record", metavar="RECORD", help="the record; `append` begins one where there is none")
    parser.add_argument("sheet", metavar="SHEET", help="a sheet of `desk sheet`")
