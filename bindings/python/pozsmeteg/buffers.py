"""Lists as the library takes them, a pointer and a length: lent as they are where their memory has the right form, else copied."""
import ctypes
from array import array
from collections import namedtuple
from collections.abc import Sequence

# code of module array, the formats of memory that need no copy, those that are copied, what is wanted in words
Kind = namedtuple("Kind", "code native foreign words")
DOUBLES = Kind("d", ("d", "@d"), ("<d", "=d"), "doubles (64-bit floating point)")
KEYS = Kind("q", ("q", "@q", "l", "@l"), ("<q", "=q"), "whole seconds (64-bit integers)")
COUNTS = Kind("Q", ("Q", "@Q", "L", "@L"), ("<Q", "=Q"), "counts (64-bit integers without a sign)")
BYTES = Kind("B", ("B", "@B", "b", "c", "?", "@?"), (), "bytes (0 for not good)")
RAW = ("B", "b", "c")


class PyBuffer(ctypes.Structure):
    """The interpreter's Py_buffer, of which only the address is read."""

    _fields_ = [
        ("address", ctypes.c_void_p), ("owner", ctypes.c_void_p), ("bytes", ctypes.c_ssize_t), ("item", ctypes.c_ssize_t),
        ("readonly", ctypes.c_int), ("dimensions", ctypes.c_int), ("format", ctypes.c_void_p), ("shape", ctypes.c_void_p),
        ("strides", ctypes.c_void_p), ("suboffsets", ctypes.c_void_p), ("internal", ctypes.c_void_p),
    ]


GET = ctypes.PYFUNCTYPE(ctypes.c_int, ctypes.py_object, ctypes.POINTER(PyBuffer), ctypes.c_int)(("PyObject_GetBuffer", ctypes.pythonapi))
RELEASE = ctypes.PYFUNCTYPE(None, ctypes.POINTER(PyBuffer))(("PyBuffer_Release", ctypes.pythonapi))
NOWHERE = (ctypes.c_double * 1)()  # an empty list has a pointer too, which is not null


def address_of(view):
    """Where a contiguous view begins; memory that is read-only has no other way to its address."""
    raw = PyBuffer()
    GET(view, ctypes.byref(raw), 0)
    address = raw.address
    RELEASE(ctypes.byref(raw))
    return address


class Lent:
    """A list that is lent: `numbers`, a flat sequence, and how many rows the library is told of where these are not its numbers.

    Its memory is held during a call only, so that a caller's array can be changed again as soon as the call has answered or refused.
    """

    __slots__ = ("numbers", "rows")

    def __init__(self, numbers, rows=None):
        self.numbers, self.rows = numbers, rows

    @property
    def length(self):
        return len(self.numbers) if self.rows is None else self.rows

    def held(self):
        """A view that keeps the memory where it is."""
        return memoryview(self.numbers)

    def pointer(self, view):
        """Address and length, as long as the view holds the memory."""
        return address_of(view) if len(view) else ctypes.addressof(NOWHERE), len(view) if self.rows is None else self.rows


def kind_of(view):
    return f"{view.format!r} of {view.itemsize} bytes"


def viewed(name, given, kind):
    """A view of memory with a format of the kind; raw bytes are taken as numbers of it."""
    view = memoryview(given)
    size = array(kind.code).itemsize
    if view.format in RAW and kind is not BYTES:
        if view.nbytes % size or not view.contiguous or view.ndim != 1:
            raise TypeError(f"{name}: {kind.words} were wanted, and {view.nbytes} raw bytes are no whole number of them")
        return view.cast("B").cast(kind.code) if view.nbytes else memoryview(array(kind.code))
    if view.itemsize != size or view.format not in kind.native + kind.foreign:
        raise TypeError(f"{name}: {kind.words} were wanted, not {kind_of(view)}")
    return view


def collected(name, given, kind):
    """An array of the numbers of a plain list or tuple."""
    if isinstance(given, str) or not isinstance(given, Sequence):
        raise TypeError(f"{name}: a buffer, list or tuple of {kind.words} was wanted, not {type(given).__name__}")
    try:
        return array(kind.code, given)
    except (TypeError, OverflowError, ValueError) as fault:
        raise TypeError(f"{name}: {kind.words} were wanted: {fault}") from None


def shaped(name, view, width):
    """A list has one dimension, or two where each row has so many numbers."""
    if view.ndim == 1 or view.ndim == 2 and width > 1 and view.shape[1] == width:
        return
    rows = f", or rows of {width} numbers" if width > 1 else ""
    raise TypeError(f"{name}: a list of one dimension{rows} was wanted, not the shape {view.shape}")


def flat(name, given, kind, width):
    """The numbers as one sequence: the caller's own memory, or a copy."""
    try:
        memoryview(given)
    except TypeError:
        return collected(name, given, kind)
    view = viewed(name, given, kind)
    shaped(name, view, width)
    if not view.nbytes:
        return array(kind.code)
    if view.c_contiguous and view.format in kind.native and address_of(view) % view.itemsize == 0:
        if view.ndim == 1 and view.format == kind.code:
            return given if isinstance(given, array) or kind is BYTES and isinstance(given, (bytes, bytearray)) else view
        return view.cast("B").cast(kind.code)
    copy = array(kind.code)
    copy.frombytes(view.tobytes())
    return copy


def lend(name, given, kind=DOUBLES, width=1):
    return given if isinstance(given, Lent) else Lent(flat(name, given, kind, width))


def real(name, given):
    """One double; what is no number is a TypeError."""
    return collected(name, (given,), DOUBLES)[0]


def fresh(count, code="d"):
    """A list of zeros that a call fills; `numbers` is an array for the caller."""
    numbers = array(code)
    numbers.frombytes(bytes(numbers.itemsize * count))
    return Lent(numbers)


def copied(lent):
    """An output that begins as a copy of what was given."""
    return Lent(array(DOUBLES.code, lent.numbers))


def scratch(count):
    return Lent((ctypes.c_double * count)())
