"""The reference held against plain readings of the same rules, on random queries: python3 -m unittest, in the repository's folder."""

import pathlib
import sys

sys.path.insert(0, str(pathlib.Path(__file__).resolve().parent.parent.parent / "tools"))
