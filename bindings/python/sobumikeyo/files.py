"""Sitting files."""

from ctypes import byref, c_size_t, c_uint8, c_uint32, c_uint64
from typing import NamedTuple

from sobumikeyo.arguments import array_of, byte_run, number
from sobumikeyo.library import calls
from sobumikeyo.refusals import refuse_unless_zero

LONGEST_HEADER = 6  # alphabet and depth in a byte each, both lengths in two


class SittingFile(NamedTuple):
    """What a sitting file holds; the symbols of each sample are one byte each."""

    alphabet: int
    depth: int
    first: bytes
    second: bytes


class Lost(NamedTuple):
    """How many bytes are lost of a damaged sitting file: those of each sample that did not exist, those that
    existed and were dropped (the first that is no symbol, and those after it), and those after both samples."""

    first_missing: int
    first_dropped: int
    second_missing: int
    second_dropped: int
    cut_off: int


class Salvaged(NamedTuple):
    """What a salvage saves, a valid file with the shorter lengths, and what is lost."""

    file: bytes
    lost: Lost


def read(file):
    """Reads the bytes of a sitting file; refusals 13 to 16, the first fault from the left.

    >>> read(bytes([2, 1, 3, 1, 0, 1, 0, 1]))
    SittingFile(alphabet=2, depth=1, first=b'\\x00\\x01\\x00', second=b'\\x01')
    >>> read(bytes([2, 1, 3, 1, 0]))
    Traceback (most recent call last):
    sobumikeyo.refusals.Refusal: refused 13: The file ends too early. See that all of it was copied, and that it has as many symbols as its header says. Where the header is whole, a salvage keeps what is there.
    """
    file = byte_run(file, "file")
    shape = (c_uint32 * 4)()
    refuse_unless_zero(calls()["read"](*array_of(c_uint8, file), byref(shape)))
    alphabet, depth, n, m = shape
    # the symbols are the file's last n + m bytes
    symbols = file[len(file) - n - m :]
    return SittingFile(alphabet, depth, symbols[:n], symbols[n:])


def write(first, second, alphabet, depth):
    """The bytes of the sitting file of two samples (each bytes, or numbers below 256), in shortest form;
    refusal 15 where a file may not have those values. `read` reads the same back, and an accepted file
    written again has the same bytes.

    >>> write([0, 1, 0], [1], alphabet=2, depth=1)
    b'\\x02\\x01\\x03\\x01\\x00\\x01\\x00\\x01'
    >>> write([0, 2, 0], [1], alphabet=2, depth=1)
    Traceback (most recent call last):
    sobumikeyo.refusals.Refusal: refused 15: A number of the file, read or to be written, is outside its limits. Keep the alphabet from 2 to 8, the depth to 6, each length to 2,048, and each symbol below the alphabet's size. If it is a symbol in a file, a salvage keeps its sample up to it.
    """
    first, second = byte_run(first, "first"), byte_run(second, "second")
    shape = number(alphabet, "alphabet"), number(depth, "depth")
    room = LONGEST_HEADER + len(first) + len(second)  # always enough, so that 19 is never given
    file, written = (c_uint8 * room)(), c_size_t()
    samples = *array_of(c_uint8, first), *array_of(c_uint8, second)
    refuse_unless_zero(calls()["write"](*samples, *shape, file, room, byref(written)))
    return bytes(file[: written.value])


def salvage(damaged):
    """What can be saved of the bytes of a damaged sitting file: each sample keeps its bytes up to the first that
    is missing or no symbol. Refusals 13 to 15 where the header cannot be read within limits, as `read` says. The
    saved file is one that `read` accepts, and a sound file comes out the same, with nothing lost.

    >>> salvaged = salvage([2, 1, 3, 4, 0, 9, 0, 1, 1])  # the first sample has a 9, and the second two symbols of four
    >>> salvaged.file
    b'\\x02\\x01\\x01\\x02\\x00\\x01\\x01'
    >>> salvaged.lost
    Lost(first_missing=0, first_dropped=2, second_missing=2, second_dropped=0, cut_off=0)
    >>> any(salvage(salvaged.file).lost)
    False
    >>> salvage([2, 1, 3, 0x80, 0])
    Traceback (most recent call last):
    sobumikeyo.refusals.Refusal: refused 14: A number in the file is not in its shortest form. Write it in as few bytes as it needs, which is never more than two. If it is a symbol, a salvage keeps its sample up to it.
    """
    damaged = byte_run(damaged, "damaged")
    file, room = array_of(c_uint8, bytes(len(damaged)))  # always enough, so that 19 is never given
    written, told = c_size_t(), (c_uint64 * 5)()
    refuse_unless_zero(calls()["salvage"](*array_of(c_uint8, damaged), file, room, byref(written), byref(told)))
    return Salvaged(bytes(file[: written.value]), Lost(*told))
