"""Finds libpozsmeteg.so, loads it, and gives each of its calls the types of bindings/c/pozsmeteg.h."""
import ctypes
import os

from .buffers import Lent

NAME = "libpozsmeteg.so"
FOLDER = os.path.dirname(os.path.abspath(__file__))
VARIABLE = "POZSMETEG_LIB"

# d a double, u a 32-bit count, n a length or a degree, l a list (a pointer and its length); a call answers b, the number of a refusal, unless it says otherwise
SIGNATURES = {
    "root": "d:d",
    "sine": "d:d",
    "cosine": "d:d",
    "arctangent": "dd:d",
    "arcsine": "d:d",
    "power": "dud:d",
    "legendre_new": "nlll:b",
    "partials": "nlll" + "ddd" + "ll:b",
    "prepare": "nl:b",
    "partials_prepared": "ndd" + "lll" + "ddd" + "l:b",
    "fit_orbit": "n" + "l" * 7 + "dndd" + "lll:b",
    "residuals": "n" + "l" * 23 + ":b",
    "sheet": "n" + "l" * 23 + ":b",
    "revolutions": "l" * 7 + ":b",
    "detrend": "l" * 7 + ":b",
    "band_pass": "l" * 4 + ":b",
    "horizon": "l" * 8 + ":b",
    "final_count": "l" * 9 + ":b",
    "final_entries": "ln:n",
}

TYPES = {
    "d": (ctypes.c_double,),
    "u": (ctypes.c_uint32,),
    "n": (ctypes.c_size_t,),
    "l": (ctypes.c_void_p, ctypes.c_size_t),
    "b": (ctypes.c_uint8,),
}


class LibraryMissing(Exception):
    """libpozsmeteg.so was not found, or is not one that this package can use; the message says what makes it."""


def named_by_variable(value):
    """The file that POZSMETEG_LIB means: itself, or the library in the folder that it names."""
    return os.path.join(value, NAME) if os.path.isdir(value) else value


def candidates():
    """Where the library may stand, the first that is there being taken: beside the package (pip install), in the checkout."""
    return [os.path.join(FOLDER, NAME), os.path.normpath(os.path.join(FOLDER, "../../../target/python", NAME))]


def found():
    """The path of the library; LibraryMissing where there is none."""
    value = os.environ.get(VARIABLE)
    if value:
        path = named_by_variable(value)
        if os.path.isfile(path):
            return path
        raise LibraryMissing(f"{VARIABLE} is {value}, but there is no {path}; `bindings/python/build` makes {NAME} in target/python, or unset {VARIABLE}")
    for path in candidates():
        if os.path.isfile(path):
            return path
    raise LibraryMissing(
        f"there is no {NAME} at {' or '.join(candidates())}; `tools/staticlib` and then `bindings/python/build` make it, or {VARIABLE} names its folder")


def declared(library, path):
    """The library's functions by name, each with its types."""
    calls = {}
    for name, signature in SIGNATURES.items():
        arguments, answer = signature.split(":")
        try:
            call = getattr(library, "pozsmeteg_" + name)
        except AttributeError:
            raise LibraryMissing(f"{path} has no pozsmeteg_{name}: it is of another version; `bindings/python/build` makes it anew") from None
        call.argtypes = [t for letter in arguments for t in TYPES[letter]]
        call.restype = TYPES[answer][0]
        calls[name] = call
    return calls


class WrongMode(Exception):
    """The processor's floating-point mode is not as C starts it: refusals and bits would not be those promised."""


ONE, SMALLEST_NORMAL, HALF_STEP, MOST_OF_A_STEP = 1.0, 2.2250738585072014e-308, 2.0**-53, 1.5 * 2.0**-53


def mode_is_right():
    """Whether this thread rounds to nearest and flushes no subnormal number to zero, neither the product here nor the operand compared."""
    nearest = ONE + HALF_STEP == ONE and ONE + MOST_OF_A_STEP > ONE and -ONE - HALF_STEP == -ONE
    return nearest and SMALLEST_NORMAL * 0.5 != 0.0


LOADED = {}


def calls():
    """All calls, loaded once."""
    if not LOADED:
        path = found()
        try:
            library = ctypes.CDLL(path)
        except OSError as fault:
            raise LibraryMissing(f"{path} could not be loaded: {fault}; `bindings/python/build` makes it anew") from fault
        LOADED.update(declared(library, path))
    return LOADED


def call(name, *arguments):
    """What a call answers; an argument that is lent becomes its pointer and its length, its memory being held meanwhile."""
    if not mode_is_right():
        raise WrongMode("the floating-point mode was changed (by a library built with -ffast-math?): it has to round to nearest and keep subnormal numbers")
    flat, held = [], []
    for argument in arguments:
        if isinstance(argument, Lent):
            held.append(argument.held())
            flat.extend(argument.pointer(held[-1]))
        else:
            flat.append(argument)
    try:
        return calls()[name](*flat)
    finally:
        for view in held:
            view.release()
