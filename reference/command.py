"""How the commands of this repository answer: --help, and what goes wrong in one line with a status other than 0."""

import argparse
import os
import re
import sys
from pathlib import Path

REFUSALS = Path(__file__).resolve().parents[1] / "docs" / "REFUSALS.md"
MOST_BYTES = 2**20  # of a file that is read whole; none that is right comes near it


class Fault(Exception):
    """What is wrong with what a command was given, in words."""


class Parser(argparse.ArgumentParser):
    """A command's arguments; its documentation is its help."""

    def __init__(self, name, documentation):
        form = argparse.RawDescriptionHelpFormatter
        super().__init__(prog=name, description=documentation, formatter_class=form, allow_abbrev=False)

    def error(self, message):
        self.exit(2, one_line(f"{self.prog}: {message} (--help says more)") + "\n")


def run(name, main, *faults):
    """Runs a command to its end, which may be a fault."""
    try:
        if sys.stdout is None:
            raise Fault("standard output is closed")
        try:
            main()
        finally:
            sys.stdout.flush()
    except KeyboardInterrupt:
        sys.exit(f"{name}: interrupted")
    except BrokenPipeError:
        leave_output()
        sys.exit(f"{name}: nobody reads the output any more")
    except (Fault, OSError, UnicodeError, *faults) as fault:
        leave_output()
        sys.exit(one_line(f"{name}: {words_of(fault)}"))


def leave_output():
    """What could not be written is not tried again at the end."""
    try:
        sys.stdout.flush()
    except (OSError, AttributeError):
        os.dup2(os.open(os.devnull, os.O_WRONLY), 1)


def words_of(fault):
    if isinstance(fault, OSError) and fault.strerror:
        return f"{fault.filename}: {fault.strerror}" if fault.filename else fault.strerror
    return str(fault)


def one_line(words):
    return " ".join(words.split())


def refusal(number):
    """A refusal in words: what happened and what to do, by the table of docs/REFUSALS.md."""
    rows = re.findall(r"^\| (\d+) \| (.*) \| (.*) \|$", REFUSALS.read_text("utf-8"), re.MULTILINE)
    words = {int(row): f"{happened} {advice}" for row, happened, advice in rows}
    return f"refused {number}: {words.get(number, 'docs/REFUSALS.md does not have it')}"


def content_of(path):
    """The bytes of a file, or of standard input where there is no path."""
    if path is None:
        return standard_input(MOST_BYTES)
    with open(path, "rb") as file:
        content = file.read(MOST_BYTES + 1)
    if len(content) > MOST_BYTES:
        raise Fault(f"{path}: more than {MOST_BYTES} bytes")
    return content


def standard_input(most=-1):
    if sys.stdin is None:
        raise Fault("standard input is closed")
    return sys.stdin.buffer.read(most)


def text_of(content, what):
    """The text of these bytes, its lines ended by line feeds, whatever they were ended by."""
    try:
        text = content.decode("utf-8-sig")
    except UnicodeDecodeError as fault:
        raise Fault(f"{what}: no text in UTF-8, since byte {fault.start} is {content[fault.start]:#04x}") from None
    return text.replace("\r\n", "\n").replace("\r", "\n")
