"""Compares the reference with itself, and with the built programs where their paths are given.

    python3 -m reference.compare [--seed S] [--seconds T] [--program PATH] [--scripts PATH] [--salvage PATH]

Prints how many of each kind were compared. At the first difference it prints it whole and ends
with 1. A case is fixed by seed, kind and round, so a difference comes again with the same seed.
"""

import sys
import time
from collections import Counter
from random import Random

from reference.built import BuiltProgram, BuiltSalvage, BuiltScripts
from reference.checks import CHECKS
from reference.command import Fault, Parser, run
from reference.difference import Difference
from reference.exchange_checks import EXCHANGE_CHECKS

FILES_A_ROUND = 40
FILES_ALIKE_A_ROUND = 10
SCRIPTS_A_ROUND = 1
REPLAYS_A_ROUND = 2
SCRIPTS_ALIKE_A_ROUND = 1
SALVAGES_A_ROUND = 40
ROUNDS = ("rounds", "")
COMMAND = "python3 -m reference.compare"


def arguments():
    parser = Parser(COMMAND, __doc__)
    parser.add_argument("--seed", type=int, default=1, help="fixes what is drawn (1)")
    parser.add_argument("--seconds", type=float, default=30, help="rounds are begun for so long (30)")
    parser.add_argument("--program", metavar="PATH", help="the built program that reads a sitting file")
    parser.add_argument("--scripts", metavar="PATH", help="the built program that plays scripts")
    parser.add_argument("--salvage", metavar="PATH", help="the built program that salvages a sitting file")
    given = parser.parse_args()
    if not given.seconds >= 0:
        raise Fault(f"--seconds is a number from 0 up, not {given.seconds}")
    return given


def drawn_kinds(given):
    """What is compared in each round, and how often."""
    kinds = CHECKS + EXCHANGE_CHECKS
    if given.program is not None:
        kinds.append((BuiltProgram(given.program).compare_drawn, FILES_A_ROUND))
        kinds.append((BuiltProgram(given.program).compare_exchanged, FILES_ALIKE_A_ROUND))
    if given.scripts is not None:
        kinds.append((BuiltScripts(given.scripts).compare_drawn, SCRIPTS_A_ROUND))
        kinds.append((BuiltScripts(given.scripts).compare_replay, REPLAYS_A_ROUND))
        kinds.append((BuiltScripts(given.scripts).compare_exchanged, SCRIPTS_ALIKE_A_ROUND))
    if given.salvage is not None:
        kinds.append((BuiltSalvage(given.salvage).compare_drawn, SALVAGES_A_ROUND))
    return kinds


def compare(given, tally):
    """Fixed cases first, then rounds until the time is over; the round in which it ends goes through."""
    end = time.monotonic() + given.seconds
    built = [(BuiltProgram, given.program), (BuiltScripts, given.scripts), (BuiltSalvage, given.salvage)]
    for kind, path in built:
        if path is not None:
            kind(path).compare_fixed(tally)
    kinds = drawn_kinds(given)
    while tally[ROUNDS] == 0 or time.monotonic() < end:
        play_round(kinds, given.seed, tally)


def play_round(kinds, seed, tally):
    for check, often in kinds:
        random = Random(f"{seed} {check.__qualname__} {tally[ROUNDS]}")
        for _ in range(often):
            check(random, tally)
    tally[ROUNDS] += 1


def print_tally(tally):
    """A line for each kind: how many in all, and of each part where the kind has parts."""
    kinds = {}
    for (kind, part), count in sorted(tally.items()):
        kinds.setdefault(kind, []).append((part, count))
    for kind, parts in kinds.items():
        shown = ", ".join(f"{part} {count}" for part, count in parts if part)
        print(f"{sum(count for _, count in parts):8} {kind}" + (f" ({shown})" if shown else ""))


def main():
    given = arguments()
    tally = Counter()
    try:
        compare(given, tally)
    except Difference as difference:
        print_tally(tally)
        print(f"difference in round {tally[ROUNDS]} of seed {given.seed}\n{difference}")
        sys.exit(1)
    print_tally(tally)
    print(f"no difference, seed {given.seed}")


if __name__ == "__main__":
    run(COMMAND, main)
