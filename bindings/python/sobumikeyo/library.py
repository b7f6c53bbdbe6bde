"""The C functions, as include/sobumikeyo.h has them."""

import ctypes
import os
from ctypes import POINTER, c_bool, c_double, c_int64, c_size_t, c_uint8, c_uint32, c_uint64
from functools import cache
from pathlib import Path

OWN = Path(__file__).resolve().parents[3] / "target" / "libsobumikeyo.so"

STORE = [POINTER(c_uint32), c_size_t]
BYTES = [POINTER(c_uint8), c_size_t]
NUMBERS = [c_uint32]
OUT = [POINTER(c_uint32)]

# Each function's answer and its arguments.
FUNCTIONS = {
    "make": (c_uint32, STORE + NUMBERS),
    "open": (c_uint32, STORE + 5 * NUMBERS),
    "feed": (c_uint32, STORE + 3 * NUMBERS),
    "feed_all": (c_uint32, STORE + 2 * NUMBERS + BYTES + OUT),
    "close": (c_uint32, STORE + NUMBERS),
    "room": (c_uint32, STORE + OUT),
    "report": (c_uint32, STORE + NUMBERS + STORE + NUMBERS + OUT + [POINTER(c_int64)]),
    "chart": (c_uint32, STORE + 4 * NUMBERS + OUT + 3 * [POINTER(c_double)]),
    "read": (c_uint32, BYTES + [POINTER(c_uint32 * 4)]),
    "write": (c_uint32, 2 * BYTES + 2 * NUMBERS + BYTES + [POINTER(c_size_t)]),
    "salvage": (c_uint32, 2 * BYTES + [POINTER(c_size_t), POINTER(c_uint64 * 5)]),
    "sound": (c_bool, STORE),
}


@cache
def calls():
    """The functions by name, from the library that SOBUMIKEYO_SO names or from this repository's."""
    path = os.environ.get("SOBUMIKEYO_SO", OWN)
    if not os.path.isfile(path):
        raise ImportError(f"no library at {path}: build it with bindings/python/build, or name another by SOBUMIKEYO_SO")
    try:
        # calls are short: a PyDLL keeps the interpreter's lock, so that no other thread comes between
        library = ctypes.PyDLL(os.fspath(path))
        functions = {name: library[f"sobumikeyo_{name}"] for name in FUNCTIONS}
    except (OSError, AttributeError) as fault:
        raise ImportError(f"no library of these functions: {fault}") from None
    for name, function in functions.items():
        function.restype, function.argtypes = FUNCTIONS[name]
    return functions
