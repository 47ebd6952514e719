"""The listing's cases, by topic: each function adds some, with their listings by hand, in the order of GROUPS."""
import pathlib
import sys

# The model of the rules and the images' fields are tests/compare's.
sys.path.insert(0, str(pathlib.Path(__file__).resolve().parents[2] / 'compare'))
