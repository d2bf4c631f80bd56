"""The programs that are tried, and what else a script needs of the machine."""

import functools
import os
import pathlib
import shutil
import subprocess
import sys

TOP = pathlib.Path(__file__).resolve().parents[2]

# The configuration of the examples.
EXAMPLE = "examples/archive.json"


def needs(*programs, perl=(), python=(), root=False):
    """Ends with the status 2 where a program or a library of Perl or of Debian's Python is missing, or the rights of root."""
    missing = [it for it in programs if not shutil.which(it)]
    missing += [it for it in python if subprocess.run(["/usr/bin/python3", "-c", f"import {it}"], stderr=subprocess.DEVNULL, check=False).returncode]
    missing += [it for it in perl if subprocess.run(["perl", f"-M{it}", "-e", "1"], stderr=subprocess.DEVNULL).returncode]
    missing += ["the rights of root"] * (root and os.getuid() != 0)
    if missing:
        print(f"this needs {', '.join(missing)}", file=sys.stderr)
        sys.exit(2)


def oaihost():
    """The program `oaihost`: the one that OAIHOST names, or the proved one of this repository."""
    return program("oaihost")


def oaihostd():
    """The program `oaihostd`: the one that OAIHOSTD names, or the proved one of this repository."""
    return program("oaihostd")


def is_given(name):
    """Whether the environment names the program."""
    return bool(os.environ.get(name.upper()))


@functools.cache
def program(name):
    """The path of a program, which is seen to run: called without arguments it ends with the status 2. The first use of the one of bin/ builds it; it is then
    called itself, since that of bin/ looks at all sources each time."""
    given = os.environ.get(name.upper())
    with subprocess.Popen([given or f"bin/{name}"], stdin=subprocess.DEVNULL, stdout=subprocess.DEVNULL, stderr=subprocess.PIPE, text=True) as called:
        for line in called.stderr:
            if line.startswith(("usage: ", "error: ")):
                break
            print(line, end="", file=sys.stderr, flush=True)
        called.stderr.read()
    if called.returncode != 2:
        sys.exit(2)
    return os.path.abspath(given or f"crates/{name}/out/{name}")
