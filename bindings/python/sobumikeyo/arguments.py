"""What callers give: whole numbers, runs of them and sheets. What is none of these is told by its argument's name."""

from collections.abc import Mapping, Set
from ctypes import c_uint32
from io import IOBase
from operator import index

LARGEST = 2**32 - 1
LARGEST_BYTE = 255
LONGEST_SHOWN = 64  # bits


def number(value, name, largest=LARGEST, place=None):
    """A whole number of 32 bits. ctypes would cut a larger one, and the call would be another."""
    try:
        whole = index(value)
    except TypeError:
        raise TypeError(f"{name_of(name, place)} must be a whole number, not {kind_of(value)}") from None
    if not 0 <= whole <= largest:
        raise ValueError(f"{name_of(name, place)} must be a whole number from 0 to {largest}, not {shown(whole)}")
    return whole


def whole_numbers(values, name, largest=LARGEST):
    """A run of whole numbers."""
    return [number(value, name, largest, place) for place, value in enumerate(listed(values, name))]


def byte_run(values, name):
    """A run of numbers below 256, as bytes."""
    return bytes(values) if isinstance(values, (bytes, bytearray)) else bytes(whole_numbers(values, name, LARGEST_BYTE))


def listed(values, name):
    """The elements of a run; text and open files have elements that are no numbers, sets and mappings have no order."""
    if isinstance(values, (str, IOBase, Set, Mapping)) or not is_iterable(values):
        raise TypeError(f"{name} must be bytes or whole numbers in a row, not {kind_of(values)}")
    return list(values)


def is_iterable(values):
    try:
        iter(values)
    except TypeError:
        return False
    return True


def instance(value, name, kind):
    """A value of that class and no other."""
    if not isinstance(value, kind):
        raise TypeError(f"{name} must be a {kind.__name__}, not {kind_of(value)}")
    return value


def name_of(name, place):
    """An argument's name, or that of an element."""
    return name if place is None else f"{name}[{place}]"


def shown(whole):
    """A number that is wrong, briefly: Python itself writes none of thousands of digits."""
    return whole if whole.bit_length() <= LONGEST_SHOWN else f"one of {whole.bit_length()} bits"


def kind_of(value):
    """What a wrong argument is, for a message."""
    return "None" if value is None else f"a value of type {type(value).__name__}"


def array_of(kind, values):
    """The values as an array to lend, and how many there are. An empty one still has a place in memory."""
    return (kind * max(len(values), 1))(*values), len(values)


def sheet_of(buffer, name):
    """A sheet that the caller lends, such as an array.array("I"), and how many numbers it has."""
    view = view_of(buffer)
    if view is None or view.readonly or view.format.lstrip("@=<") not in ("I", "L") or view.itemsize != 4:
        raise TypeError(f"{name} must be a writable run of unsigned numbers of 32 bits, such as an array.array('I')")
    if view.nbytes == 0:
        return array_of(c_uint32, ())
    many = view.nbytes // view.itemsize
    return (c_uint32 * many).from_buffer(buffer), many


def view_of(buffer):
    """The memory of a sheet, where it has any and in one piece."""
    try:
        view = memoryview(buffer)
    except (TypeError, ValueError, BufferError):
        return None
    return view if view.c_contiguous else None
