"""The files of the crate `cases`, and what the program prints for each.

    python3 -m reference.cases

writes crates/cases/data, args and stdout anew from cases.txt beside this module.
"""

import shutil
from pathlib import Path

from reference.command import Parser, run
from reference.program import output
from reference.sitting_file import write

HERE = Path(__file__).resolve().parent
CRATE = HERE.parent / "crates" / "cases"
COMMAND = "python3 -m reference.cases"


def cases():
    """The files by name, in their order."""
    lines = (HERE / "cases.txt").read_text().splitlines()
    named = [line.split() for line in lines if line and not line.startswith("#")]
    return {name: file_of(kind, words) for name, kind, *words in named}


def file_of(kind, words):
    if kind == "bytes":
        return bytes_of(words)
    sitting, more = parted(words, "then")
    (A, D), samples = parted(sitting, "/")
    return write(int(A), int(D), *map(symbols_of, parted(samples, "/"))) + bytes_of(more)


def parted(words, mark):
    """The words before the mark, and those after it."""
    place = words.index(mark) if mark in words else len(words)
    return words[:place], words[place + 1 :]


def repeated(words):
    """Each word as often as it says."""
    for word in words:
        once, _, count = word.partition("*")
        yield from [once] * int(count or 1)


def bytes_of(words):
    return bytes.fromhex("".join(repeated(words)))


def symbols_of(words):
    return tuple(map(int, "".join(repeated(words))))


def printed(files):
    """Each name on a line, and the program's output after it."""
    return "".join(f"{name}\n{output(file)}" for name, file in files.items())


def main():
    Parser(COMMAND, __doc__).parse_args()
    files = cases()
    data = CRATE / "data"
    shutil.rmtree(data, ignore_errors=True)
    data.mkdir()
    for name, file in files.items():
        (data / name).write_bytes(file)
    (CRATE / "args").write_text("".join(f"{name}\n" for name in files))
    (CRATE / "stdout").write_text(printed(files))


if __name__ == "__main__":
    run(COMMAND, main)
