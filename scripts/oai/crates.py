"""The crates of the repository, as crates.txt lists them."""

import re

from oai.programs import TOP


def uses(path=TOP / "crates.txt"):
    """Each crate of the file, with what it stands on."""
    found = re.findall(r"^([a-z_0-9]+)[^:\n#]*:(.*)$", path.read_text(encoding="utf-8"), re.MULTILINE)
    return {crate: words.split() for crate, words in found}


def below(names):
    """The crates of these names, and all that they stand on, of those of the repository."""
    listed, reached, left = uses(), set(), list(names)
    while left:
        crate = left.pop()
        if crate in listed and crate not in reached:
            reached.add(crate)
            left.extend(listed[crate])
    return reached


def proved():
    """The crates that are not of tests, as they are listed."""
    return [it for it in uses() if not it.startswith("tests_")]
