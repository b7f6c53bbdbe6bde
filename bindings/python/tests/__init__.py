"""The tests: run `python3 -m unittest` in bindings/python."""

import sys
from pathlib import Path

REPOSITORY = Path(__file__).resolve().parents[3]
sys.path.append(str(REPOSITORY))  # for the second program, which answers are compared with
