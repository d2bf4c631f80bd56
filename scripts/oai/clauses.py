"""Counts the clauses, the functions and the modules of crates."""

import re

from oai.programs import TOP

FUNCTION = re.compile(r"^\s*(?:pub(?:\([a-z]+\))? )?fn (\w+)(?:<[^(]*>)?\((.*)$")
CLAUSE = re.compile(r"^\s*(?:requires|ensures)\b")


def parameters(text):
    """The parameters between the parentheses, `self` apart."""
    names = re.findall(r"(?:^|[,(]\s*|\n\s*)(?:mut )?(\w+):", text)
    return len(names)


def functions(path):
    """The functions of a file: name, parameters, clauses."""
    lines = path.read_text().split("\n")
    at = 0
    while at < len(lines):
        found = FUNCTION.match(lines[at])
        at += 1
        if not found:
            continue
        text = found.group(2)
        while text.count("(") + 1 > text.count(")") and at < len(lines):
            text += "\n" + lines[at]
            at += 1
        depth, end = 1, 0
        for end, letter in enumerate(text):
            depth += {"(": 1, ")": -1}.get(letter, 0)
            if depth == 0:
                break
        clauses = 0
        while at < len(lines) and not FUNCTION.match(lines[at]):
            clauses += bool(CLAUSE.match(lines[at]))
            if lines[at].strip().startswith("{") or lines[at].rstrip().endswith(";"):
                break
            at += 1
        yield found.group(1), parameters(text[:end]), clauses


def clauses(*crates):
    """Counts the clauses, the functions and the modules of crates.

    A clause is a line of src/ that begins with `requires` or `ensures`, a module one that begins with `mod` in
    src/lib.rt; a module of another file is a part of that file's. Functions with more than eight clauses or six
    parameters (`self` not counted) are listed. It counts the crates given, or all.
    """
    for name in crates or sorted(path.name for path in (TOP / "crates").iterdir()):
        source = TOP / "crates" / name / "src"
        files = sorted(source.rglob("*.rt"))
        count = sum(1 for path in files for line in path.read_text().split("\n") if CLAUSE.match(line))
        root = source / "lib.rt"
        modules = len(re.findall(r"^mod ", root.read_text(), re.M)) if root.exists() else 0
        each = [(path, *function) for path in files for function in functions(path)]
        print(f"{name}: {count} clauses, {len(each)} functions, {modules} modules")
        for path, function, taken, many in each:
            if many > 8 or taken > 6:
                print(f"  {path.relative_to(source)}: {function} has {many} clauses and {taken} parameters")
