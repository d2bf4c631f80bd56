"""Programs in Rattle that scripts run beside the gate: scripts/tools/NAME. The names of their files end in .txt, since the gate takes a .rt file only
in a crate that it proves; they are laid over a copy of the crates that they stand on."""

import os
import pathlib
import shutil
import subprocess
import tempfile

from oai.crates import below, uses
from oai.programs import TOP, needs

TOOLS = TOP / "scripts/tools"
PARTS = ("src", "specs", "proofs")


class Tool:
    """A program over a copy of the crates that it stands on, from here to the end of the `with`. COPY is a folder for the copy, which then stays.
    With `built` what is built of these crates is copied too."""

    def __init__(self, name, built=False):
        needs("rt")
        kept = os.environ.get("COPY")
        self.name, self.place = name, pathlib.Path(kept or tempfile.mkdtemp(prefix=f"{name}-"))
        self.is_kept, self.folder = bool(kept), self.place / "crates" / name
        words = uses(TOOLS / "programs.txt")[name]
        crates = below(words)
        for crate in crates:
            copy_parts(TOP / "crates" / crate, self.place / "crates" / crate, ("out",) if built else ())
        lines = [f"{crate}: {' '.join(of)}\n" for crate, of in uses().items() if crate in crates]
        (self.place / "crates.txt").write_text("".join([*lines, f"{name}: {' '.join(words)}\n"]))
        self.lay()

    def lay(self):
        """Puts the files of the program into the copy."""
        for part in PARTS:
            shutil.rmtree(self.folder / part, ignore_errors=True)
        for path in files_of(self.name):
            self.write(path.relative_to(TOOLS / self.name).with_suffix(""), path.read_text(encoding="utf-8"))
        for part in PARTS[1:]:
            self.write(f"{part}/Lib.antt", "")

    def write(self, path, text):
        """Writes a file of the program."""
        (self.folder / path).parent.mkdir(parents=True, exist_ok=True)
        (self.folder / path).write_text(text, encoding="utf-8")

    def __enter__(self):
        return self

    def __exit__(self, *_):
        if not self.is_kept:
            shutil.rmtree(self.place)

    def rt(self, *arguments, output=None):
        """Calls rt in its folder, where both streams go into a file if one is given; the status."""
        streams = {} if output is None else {"stdout": open(output, "wb"), "stderr": subprocess.STDOUT}
        return subprocess.run(["rt", *map(str, arguments)], cwd=self.folder, check=False, **streams).returncode


def files_of(name):
    """The files of a program, as they stand in the repository."""
    return sorted((TOOLS / name).rglob("*.txt"))


def copy_parts(source, target, more):
    """Copies what a crate consists of, and more of its folders, without what only its own checks begin with."""
    for part in (*PARTS, *more):
        shutil.rmtree(target / part, ignore_errors=True)
        if (source / part).is_dir():
            shutil.copytree(source / part, target / part, ignore=shutil.ignore_patterns("incremental"), symlinks=True)
