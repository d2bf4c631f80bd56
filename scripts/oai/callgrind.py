"""Counts the instructions of programs by valgrind's callgrind."""

import glob
import os
import re
import subprocess

# The C library's string instructions are turned off, since callgrind counts each of their bytes.
TUNABLES = "glibc.cpu.x86_rep_stosb_threshold=1000000000:glibc.cpu.x86_rep_movsb_threshold=1000000000"

COUNTED = re.compile(r"Collected : ([0-9]+)")
SUMMARY = re.compile(r"^(?:summary|totals): ([0-9]+)", re.MULTILINE)


def counted(command, given, patience=None):
    """How many instructions the command takes for the input, and what it writes; TimeoutExpired where it takes longer than so many seconds."""
    ran = subprocess.run(
        ["valgrind", "--tool=callgrind", "--callgrind-out-file=/dev/null", *command],
        input=given,
        capture_output=True,
        env=os.environ | {"GLIBC_TUNABLES": TUNABLES},
        timeout=patience,
        check=True,
    )
    return int(COUNTED.search(ran.stderr.decode())[1]), ran.stdout


def counting(output, *options):
    """What stands before a command whose instructions are counted into a file: it is for a server, which is not given an environment of its own."""
    os.environ["GLIBC_TUNABLES"] = TUNABLES
    return ["valgrind", "-q", "--tool=callgrind", f"--callgrind-out-file={output}", *options]


def total_in(pattern):
    """How many instructions stand in the one file of that pattern, which is then removed."""
    (path,) = glob.glob(pattern)
    with open(path, encoding="utf-8", errors="replace") as it:
        total = int(SUMMARY.findall(it.read())[-1])
    os.remove(path)
    return total


def control(process, *arguments):
    """Tells callgrind something of a program that runs below it."""
    command = ["callgrind_control", *arguments, str(process)]
    subprocess.run(command, check=True, stdout=subprocess.DEVNULL, stderr=subprocess.DEVNULL)
