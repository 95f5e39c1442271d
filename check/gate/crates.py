"""Reads from crates.txt which crates the repository has, and what each stands on."""
import re
from pathlib import Path

ROOT = Path(__file__).resolve().parents[2]
# The crates that only tests and examples are made of.
OF_TESTS = ('ubi_uses', 'ubi_probe', 'ubi_tests', 'ubi_command_tests')


def uses():
    """What each crate uses, lowest crate first: crates of the repository, and libraries of the kit."""
    text = (ROOT / 'crates.txt').read_text()
    return {name: libraries.split() for name, libraries in re.findall(r'^(\w+)(?: staticlib)?:(.*)$', text, re.M)}


def names():
    """The crates, lowest first."""
    return tuple(uses())


def below(crate):
    """The crates of the repository that a crate stands on, directly or not."""
    table = uses()
    found, left = set(), list(table[crate])
    while left:
        name = left.pop()
        if name in table and name not in found:
            found.add(name)
            left += table[name]
    return found
