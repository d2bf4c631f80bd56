"""Looks at the programs of scripts/tools, which the gate does not know."""

import os
import sys

from oai.crates import uses
from oai.programs import TOP
from oai.refusals import prepare
from oai.tools import TOOLS, Tool, files_of


def is_laid_out(tool, write):
    """Whether the files of the program are as `rt fmt` writes them; it puts those that differ back into the repository where that is wanted."""
    tool.rt("fmt", output=os.devnull)
    differing = 0
    for path in files_of(tool.name):
        text = (tool.folder / path.relative_to(TOOLS / tool.name).with_suffix("")).read_text(encoding="utf-8")
        if text != path.read_text(encoding="utf-8"):
            differing += 1
            print(f"{path.relative_to(TOP)}: not as rt fmt writes it")
            if write:
                path.write_text(text, encoding="utf-8")
    return differing == 0


def is_compiled(tool):
    """Whether `rt try` compiles the program, which then runs without an input for a second; else it shows what was said. Statuses of 1 to 3 say that it was
    refused, or not tried, where the program itself does not end with them."""
    output = tool.place / "tried"
    status = tool.rt("try", "--steps", 1_000, "--seconds", 1, output=output)
    said = output.read_text(encoding="utf-8", errors="replace")
    if status in (1, 2, 3) and "ended status=" not in said:
        print(said, file=sys.stderr)
        return False
    return True


def tools(*names, write: bool = False):
    """Looks at the programs of scripts/tools: whether `rt fmt` lays them out so, and `rt try` compiles them.

    The gate does not prove them: they measure times, or run where memory is refused. With `--write` it writes their
    files as `rt fmt` does. With names of programs it looks at those alone. The last line is `N tools, M differ`; the
    status is 0 where M is 0.
    """
    names = names or list(uses(TOOLS / "programs.txt"))
    differ = 0
    for name in names:
        with Tool(name) as tool:
            if name == "refuse_growth":
                prepare(tool, letters=1)
            laid_out = is_laid_out(tool, write)
            compiled = is_compiled(tool)
            print(f"{name}: {'compiled' if compiled else 'not compiled'}, {'laid out' if laid_out else 'not laid out'}", flush=True)
            differ += not (compiled and laid_out)
    print(f"{len(names)} tools, {differ} differ")
    return int(differ > 0)
