"""Demand 3 by running: refused calls and room questions are struck out of a walk, and the rest is
played again, one sitting after another in order of opening, on a new store."""

from reference.limits import DESKS
from reference.script import SHEET_NUMBERS, STORE_NUMBERS, Call, call

CLOSING_QUESTIONS = [call("report", desk, SHEET_NUMBERS, 0) for desk in DESKS] + [call("room")]


def since_making(steps):
    """The steps after the last accepted making."""
    makings = [place for place, (step, lines) in enumerate(steps) if step.name == "make" and lines == ["done"]]
    return steps[makings[-1] + 1 :]


def accepted(steps):
    """The accepted calls of sittings with their answers; of a feedall the part that was fed."""
    return [kept for step in steps for kept in kept_part(*step)]


def kept_part(step, lines):
    if step.name in ("make", "room") or lines[0].startswith("refused"):
        return []
    if step.name != "feedall":
        return [(step, lines)]
    fed = int(lines[0].split()[1])
    return [(Call("feedall", step.numbers[: 2 + fed]), [f"fed {fed} whole"])] if fed else []


def by_sitting(steps):
    """The same steps, one sitting after another in order of opening, each in its own order."""
    sittings, at_desk = [], {}
    for step, lines in steps:
        desk = step.numbers[0]
        if step.name == "open":
            at_desk[desk] = []
            sittings.append(at_desk[desk])
        at_desk[desk].append((step, lines))
    return [step for sitting in sittings for step in sitting]


def replay_of(walk):
    """The making of the new store, on all numbers that a player has, and the steps that follow."""
    making = (call("make", walk.store.K, STORE_NUMBERS), ["done"])
    return [making] + by_sitting(accepted(since_making(walk.steps)))
