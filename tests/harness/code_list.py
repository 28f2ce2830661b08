"""Reads docs/codes.toml, the list of all codes of faults and refusals."""
import os
import tomllib

from tests.harness.tree import ROOT

LIST = os.path.join("docs", "codes.toml")


def read_codes():
    """What the list says of each code, in the list's order."""
    with open(os.path.join(ROOT, LIST), "rb") as file:
        return tomllib.load(file)
