"""Mutants that are killed only by a dangling name: a line of their files says so, and a sentence of docs/PROVING.md counts them."""

import re
import sys
import textwrap

from oai.programs import TOP

# The line of a mutant that is killed only since a proof file names what it removes. What tries the mutants reads no such line.
MARK = "refused: by a name"

# What a log of the gate reports of a mutant: its crate, its file, and why it is killed.
JUDGED = re.compile(r"^(?:rt: )?must-fail (\w+)/(\S+\.edit): refused, as it must be(.*)$", re.M)

# What it reports of one that is killed only by a dangling name.
BY_A_NAME = "only because a proof file names what the edit took away"

PAGE = TOP / "docs/PROVING.md"

# The paragraph that has the sentence.
COUNTED = re.compile(r"^There are \d+ mutants in `planted/`.*?(?=\n\n)", re.M | re.S)


def edits(folder):
    return sorted(TOP.glob(f"crates/*/{folder}/*.edit"))


def is_marked(edit):
    return MARK in edit.read_text().split("\n")


def mark(edit, by_a_name):
    """Has the file of the mutant say that it is killed by a dangling name, or no longer; whether that changed it."""
    if is_marked(edit) == by_a_name:
        return False
    lines = [it for it in edit.read_text().rstrip("\n").split("\n") if it != MARK]
    edit.write_text("\n".join([*lines, MARK] if by_a_name else lines) + "\n")
    return True


def sentence():
    """How many mutants there are, and how many of them are killed only by a dangling name."""
    planted, tried = edits("planted"), edits("must-fail")
    named = [sum(is_marked(it) for it in those) for those in (planted, tried)]
    return (
        f"There are {len(planted)} mutants in `planted/` and {len(tried)} in `must-fail/`. The line `{MARK}` marks those that were killed only by a dangling "
        f"name: so far {named[0]} and {named[1]}."
    )


def is_counted():
    """Whether docs/PROVING.md has the sentence as it is now."""
    found = COUNTED.search(PAGE.read_text())
    return found is not None and " ".join(found[0].split()) == sentence()


def write_sentence():
    PAGE.write_text(COUNTED.sub(lambda _: textwrap.fill(sentence(), 120, break_on_hyphens=False), PAGE.read_text()))


def marks(log=None):
    """Marks the mutants that the gate kills only by a dangling name, and counts them in docs/PROVING.md.

    Each mutant of must-fail/ that the log of a gate reports gets the line `refused: by a name`, or loses it. The log is
    what `bash .ci/run` or `rt must-fail` prints. Those of planted/ are marked by `scripts/run planted`. The last line
    says how many are marked.
    """
    changed = 0
    if log is not None:
        with open(log, encoding="utf-8", errors="replace") as it:
            judged = JUDGED.findall(it.read())
        if not judged:
            sys.exit(f"marks: {log} reports no mutant as killed")
        for crate, name, why in judged:
            file = TOP / "crates" / crate / "must-fail" / name
            changed += file.is_file() and mark(file, BY_A_NAME in why)
    write_sentence()
    print(f"{changed} marks changed")
    print(f"{sum(map(is_marked, edits('must-fail')))} of must-fail/ and {sum(map(is_marked, edits('planted')))} of planted/ are marked")
    return 0
