"""Words: the bits of a number as 16 hexadecimal digits in upper case, and lines of them."""
import struct
import sys
from array import array

DIGITS = b"0123456789ABCDEF"


def word_of(number):
    return struct.pack(">d", number).hex().upper()


def double_of(word):
    return struct.unpack(">d", bytes.fromhex(word))[0]


def bits_of(numbers):
    """The bits of doubles, or of keys, as whole numbers."""
    bits = array("Q")
    bits.frombytes(numbers.tobytes())
    return bits


def numbers_of(bits, kind="d"):
    numbers = array(kind)
    numbers.frombytes(bits.tobytes())
    return numbers


def swapped(bits):
    """The first digits of a word are the high ones."""
    if sys.byteorder == "little":
        bits.byteswap()
    return bits


def separators(width, count):
    """What stands behind the words of so many lines."""
    return (b" " * (width - 1) + b"\n") * count


def lines_text(bits, width):
    """Lines of `width` words."""
    if not bits:
        return b""
    text = bytearray(swapped(bits[:]).tobytes().hex(" ", 8).upper().encode("ascii"))
    text += b"\n"
    text[17 * width - 1 :: 17 * width] = b"\n" * (len(bits) // width)
    return bytes(text)


def are_lines(text, width, count):
    """Whether a text is so many lines of `width` words: each 17th byte is a separator, and no other byte is anything but a digit."""
    wanted = separators(width, count)
    return len(text) == 17 * width * count and text[16::17] == wanted and text.translate(None, DIGITS) == wanted


def bits_in(text):
    """The bits of the words of a text."""
    bits = array("Q")
    bits.frombytes(bytes.fromhex(text.decode("ascii")))
    return swapped(bits)


def joined(columns):
    """Lists of bits, one a column, as one list, line by line."""
    width = len(columns)
    bits = array("Q", bytes(8 * width * len(columns[0])))
    for place, column in enumerate(columns):
        bits[place::width] = column
    return bits
