"""Runs the tests of a crate, without a proof."""

import re
import subprocess
import sys

from oai.crates import uses
from oai.programs import TOP, needs
from oai.refusals import has_tests

# For how many seconds a test may go on.
SECONDS = 30


def crates_of_tests(crate):
    """The crate itself if it has tests, or those of tests that its README names."""
    if has_tests(crate):
        return [crate]
    page = TOP / "crates" / crate / "README.md"
    named = re.findall(r"`(tests_\w+)`", page.read_text(encoding="utf-8")) if page.exists() else []
    return [it for it in dict.fromkeys(named) if it in uses() and has_tests(it)]


def run_tests(crate):
    """Runs the tests of a crate of tests, and prints what `rt try --test` prints; the names of those that failed, and of those that took too long."""
    failed, slow, name = [], [], None
    command = ["rt", "try", "--test", "--seconds", str(SECONDS)]
    with subprocess.Popen(command, cwd=TOP / "crates" / crate, stdout=subprocess.PIPE, stderr=subprocess.STDOUT, text=True) as running:
        for line in running.stdout:
            print(line, end="", flush=True)
            found = re.match(r"test (\S+) \.\.\. FAILED", line)
            if found:
                name = f"{crate} {found[1]}"
                failed.append(name)
            elif name and "checked: no-answer" in line:
                failed.remove(name)
                slow.append(name)
                name = None
    if running.returncode and not failed and not slow:
        failed.append(crate)
    return failed, slow


def test(crate):
    """Runs the tests of a crate, compiled with checks and without a proof: mostly within a minute.

    CRATE is a crate of tests, or one whose README names its crates of tests. It prints what `rt try --test` prints: a
    line for each test, and their number. The checks make a few tests so slow that they are given up after 30 seconds:
    it names them, and `bash .ci/run` runs them. The last line is `N failed, M given up`; the status is 0 where N is 0.
    Nothing is proved of the tests.
    """
    needs("rt")
    if crate not in uses():
        print(f"test: there is no crate {crate}", file=sys.stderr)
        return 2
    found = crates_of_tests(crate)
    if not found:
        above = [it for it, others in uses().items() if crate in others and has_tests(it)]
        print(f"test: crates/{crate}/README.md names no crate of tests; those above it are {', '.join(above) or 'none'}", file=sys.stderr)
        return 2
    failed, slow = (sum(parts, []) for parts in zip(*map(run_tests, found)))
    for what, names in (("failed", failed), ("given up, which the gate runs", slow)):
        for name in names:
            print(f"{name}: {what}")
    print(f"{len(failed)} failed, {len(slow)} given up")
    return int(bool(failed))
