"""Request E12: a damaged sitting file is salvaged. Its header is read as the reader does; after it all is bytes.

    python3 -m reference.salvage < FILE > SAVED

writes the saved file to standard output, and to standard error a line of five numbers: how many bytes of the first
sample did not exist and how many that did exist were dropped, the same two of the second sample, and how many bytes
after both samples were cut off. Where the header is refused no file is written; the line is `refused` and the number.
"""

import sys
from functools import partial
from itertools import takewhile

from reference import sitting_file
from reference.answers import Lost, Refused, Salvaged
from reference.command import Fault, Parser, run, standard_input
from reference.program import INPUT_BYTES

PIECE = 65536  # bytes counted at a time
COMMAND = "python3 -m reference.salvage"


def salvage(damaged, buffer):
    """Writes a valid file with the shorter lengths into a lent buffer, whose bytes past the file's end stay. Refusals:
    13 to 15 for the header, then 19 for a short buffer."""
    reading = sitting_file.Reading(damaged)
    try:
        A, D, n, m = reading.header()
    except sitting_file.Fault as fault:
        return Refused(fault.args[0])
    rest = damaged[reading.place :]
    # each sample takes its next n or m bytes as far as they exist
    first, second, after_both = rest[:n], rest[n : n + m], rest[n + m :]
    answer = sitting_file.write_into(A, D, kept(first, A), kept(second, A), buffer)
    if isinstance(answer, Refused):
        return answer
    return Salvaged(answer.length, Lost(*losses(first, n, A), *losses(second, m, A), len(after_both)))


def kept(sample, A):
    """A sample keeps its bytes up to the first byte that is not below A."""
    return bytes(takewhile(lambda byte: byte < A, sample))


def losses(sample, length, A):
    """How many of the sample's bytes did not exist, and how many that did exist were dropped."""
    return length - len(sample), len(sample) - len(kept(sample, A))


def output(damaged, following=0):
    """What the program writes: the saved file, and the line that says what was lost or refused. No bytes past those that the
    program reads need be given; `following` is how many were left out, and all of these are cut off."""
    buffer = bytearray(INPUT_BYTES)
    answer = salvage(damaged, buffer)
    if isinstance(answer, Refused):
        return b"", f"refused {answer.number}\n"
    lost = answer.lost._replace(cut_off=answer.lost.cut_off + following)
    return bytes(buffer[: answer.length]), " ".join(map(str, lost)) + "\n"


def losses_kind(lost):
    """What was lost, for tallies."""
    first_missing, first_dropped, second_missing, second_dropped, cut_off = lost
    counts = {"missing": first_missing + second_missing, "dropped": first_dropped + second_dropped, "cut off": cut_off}
    return " and ".join(name for name, count in counts.items() if count) or "nothing lost"


def shown(damaged):
    """A file as a text; of a long one, those bytes that decide the saved file and how many follow."""
    following = len(damaged) - INPUT_BYTES
    return damaged[:INPUT_BYTES].hex(" ") + (f" and {following} bytes more" if following > 0 else "")


def bytes_following():
    """How many bytes are still to come at standard input."""
    return sum(map(len, iter(partial(standard_input, PIECE), b"")))


def main():
    Parser(COMMAND, __doc__).parse_args()
    if sys.stderr is None:
        raise Fault("standard error is closed")
    beginning = standard_input(INPUT_BYTES)
    saved, line = output(beginning, bytes_following())
    sys.stdout.buffer.write(saved)
    sys.stdout.flush()  # the line is written only where the file was
    sys.stderr.write(line)


if __name__ == "__main__":
    run(COMMAND, main)
