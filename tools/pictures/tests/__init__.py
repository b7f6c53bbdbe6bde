"""The tests: run `python3 -m unittest discover -s tools` at the root of the repository."""

from pathlib import Path

STORED = Path(__file__).parent / "stored"
PICTURE = Path(__file__).parents[2] / "picture"
REPOSITORY = Path(__file__).resolve().parents[3]
ACTS = REPOSITORY / "samples" / "acts.names"
ALIKE = REPOSITORY / "samples" / "alike.sitting"
NAMED = ("one_habit", "longer_memory")  # drawn with the acts' names
NUMBERED = ("apart", "no_memory", "deep", "longest")
