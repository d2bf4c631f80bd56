"""Refuses requests for memory, one after the other, and compares what comes of them."""

import collections
import os
import re
import shutil
import subprocess
import sys
import typing
from pathlib import Path

from oai.programs import TOP, needs
from oai.tools import Tool

CRATES = TOP / "crates"

# The request that is refused where none of the script is.
FAR = 100_000

SCRIPTS = ["exchange", "run", "pieces", "clock", "token", "recover", "copy"]

# How many runs go on side by side.
PARTS = int(os.environ.get("PARTS", "1"))


# ---- the script of the tests, as a file of the program


def raw_texts(path: Path) -> dict[str, str]:
    """The texts that functions of the file return, by the names of the functions."""
    found = re.findall(r'fn (\w+)\(\) -> &\'static str \{\s*r#"(.*?)"#', path.read_text(), re.DOTALL)
    return dict(found)


def plain_text(path: Path, name: str) -> str:
    """The text without raw quotes that the function returns."""
    match = re.search(rf'fn {name}\(\) -> &\'static str \{{\s*"((?:[^"\\]|\\.)*)"', path.read_text())
    return match.group(1).replace('\\"', '"').replace("\\n", "\n")


def quoted(text: str) -> str:
    """The text as a literal."""
    return '"' + text.replace("\\", "\\\\").replace('"', '\\"').replace("\n", "\\n") + '"'


def steps(transcript: str):
    """Each exchange of the transcript and the lines of its answer."""
    for step in transcript.removeprefix("> ").split("\n> "):
        asked, _, wanted = step.partition("\n")
        parts = asked.split(" | ")
        moment, method, target = parts[0].split(" ")
        yield moment, method, target, parts[2] if len(parts) > 2 else "", wanted.rstrip("\n") + "\n"


def pages_of(letters):
    """How many pages are named at the end of the script: a longer item has a page and overflow pages of its own, and the two others one behind it."""
    return 1 if letters <= 15_940 else 2 + (letters + 60 - 600 + 16_383) // 16_384


def steps_file(letters: int) -> str:
    """The script, with a title of so many letters, and the configuration, each text whole: the program asks for no memory to make them."""
    texts = CRATES / "tests_fixtures/src/transcripts.rt"
    head = plain_text(texts, "document_head")
    core = plain_text(texts, "dublin_core")
    script = raw_texts(CRATES / "tests_fixtures/src/scripts.rt")
    transcript = "".join(script[name] for name in ("deposits", "requests", "changes", "lists"))
    transcript = transcript.replace("{t}", "T" * letters)
    rows = []
    for moment, method, target, body, wanted in steps(transcript):
        wanted = re.sub("(?m)^DOC ", lambda _: head, wanted).replace("{dc}", core)
        rows.append(f"        ({moment}, {', '.join(map(quoted, (method, target, body, wanted)))}),\n")
    return (
        "//! The exchanges of the script and the configuration, whole.\n"
        "pub(crate) type Step = (i64, &'static str, &'static str, &'static str, &'static str);\n\n"
        f"/// How many pages are named at the end of the script.\npub(crate) const PAGES: usize = {pages_of(letters)};\n\n"
        f"pub(crate) fn steps() -> [Step; {len(rows)}] {{\n    [\n{''.join(rows)}    ]\n}}\n\n"
        f"pub(crate) fn configuration() -> &'static str {{\n    {quoted(raw_texts(texts)['worked_configuration'])}\n}}\n"
    )


def prepare(tool, letters):
    """Writes the script into the program."""
    tool.write("src/steps.rt", steps_file(letters))


# ---- what came of the runs


def outcomes(path: Path) -> dict[str, str]:
    """What the program wrote in each case, or the lines that the toolchain wrote of it where it did not come to an end."""
    found: dict[str, str] = {}
    name = ""
    for line in path.read_text(encoding="utf-8", errors="replace").splitlines():
        if line.startswith("== "):
            name = line.removeprefix("== ").split(" ")[0]
            found.setdefault(name, "")
        elif name:
            found[name] = f"{found[name]} {line}".strip()
    return found


def counts(path: Path, words: list[str]) -> dict[str, tuple[int, int]]:
    """For each script how many requests for memory come before it, and how many it makes itself, where none is refused."""
    found = outcomes(path)
    result = {}
    for word in words:
        spent = re.search(r"outside (\d+)", found.get(f"before-{word}", ""))
        behind = re.search(r"refused 0 differs false behind (\d+)", found.get(word, ""))
        if not spent or not behind:
            sys.exit(f"{word}: the undisturbed script does not run as it should: {found.get(word)}")
        result[word] = (FAR - 1 - int(spent[1]), int(spent[1]) - int(behind[1]))
    return result


def plan(counted: Path, cases: Path, words: list[str]) -> int:
    """Writes a case for each request that a script makes; the number of the one that is refused in all of them."""
    numbers = counts(counted, words)
    number = max(before + own for before, own in numbers.values()) + 1
    for old in cases.iterdir():
        old.unlink()
    for word, (before, own) in numbers.items():
        for n in range(1, own + 1):
            write_case(cases, f"{word}-{n}", word, number - before - n, number)
    return number


def write_case(cases, name, *arguments):
    """A case of the program: no input, and these arguments."""
    (cases / name).write_text("")
    (cases / f"{name}.args").write_text("".join(f"{it}\n" for it in arguments))


def refused_runs(tool, cases, number):
    """Runs the cases, PARTS side by side, with that request refused; the file of what came of them."""
    parts = [cases.with_name(f"cases.{it}") for it in range(PARTS)]
    for part in parts:
        shutil.rmtree(part, ignore_errors=True)
        part.mkdir()
    for turn, arguments in enumerate(sorted(cases.glob("*.args"))):
        for path in (arguments, arguments.with_suffix("")):
            path.rename(parts[turn % PARTS] / path.name)
    outputs = [open(tool.place / f"refused-{it}", "wb") for it in range(PARTS)]
    command = ["rt", "try", "--fail-alloc", str(number), "--seconds", "60", "--cases"]
    running = [subprocess.Popen([*command, part], cwd=tool.folder, stdout=it, stderr=it) for part, it in zip(parts, outputs)]
    for one, output in zip(running, outputs):
        one.wait()
        output.close()
    refused = tool.place / "refused"
    refused.write_bytes(b"".join(Path(it.name).read_bytes() for it in outputs))
    return refused


def tally(counted: Path, refused: Path, words: list[str]) -> int:
    """Says what came of each script."""
    found = outcomes(refused)
    differences = met = 0
    for word, (before, own) in counts(counted, words).items():
        told = quiet = 0
        for n in range(1, own + 1):
            outcome = found.get(f"{word}-{n}", "no outcome")
            course = re.search(r"refused (\d+) differs (true|false) behind \d+", outcome)
            if course is None or course[2] == "true":
                print(f"{word}, request {n} refused: {outcome}")
                differences += 1
            else:
                told += course[1] != "0"
                quiet += course[1] == "0"
        met += own
        print(f"{word}: {own} requests for memory behind {before} others; {told} refused and told, {quiet} refused with no answer changed")
    print(f"{met} refused, {differences} differences")
    return int(differences > 0)


def refuse_growth(letters: int = 1, *scripts: typing.Literal["exchange", "run", "pieces", "clock", "token", "recover", "copy"]):
    """Refuses each request for memory in turn.

    A program is made in a copy of the crates, with the script of crates/tests_fixtures/src/scripts.rt, on a host over
    pages in memory, and is run, compiled with checks and without a proof, once for each request for memory that it
    makes:
      exchange   the script by Host::exchange: an exchange that is answered 503 for memory is made once more
      run        the script by Host::run: a run that is refused is made once more; in one that answers 503, the answers before it are compared
      pieces     a message and the same again through a front, a byte a piece: a piece that is refused is handed in again, behind Unfinished an empty
                 one, and behind an answered 503 the message
      clock      commands at a later moment, each on a host of its own: behind one that is refused, Identify at the first moment
      token      the token of a list's second part: where it is refused, that of the third part is none that was handed out; then the token again
      recover    the script's journal, replayed: a recovery that is refused is made once more, and what is asked then is answered as by the
                 host that ended
      copy       a harvester's copy that catches up with one harvest after the other: where a call is refused, its items are as before; then it again
    Answers and pages, and the items of the copy, must be those of the undisturbed run. Of each it prints how many
    requests for memory it makes behind those that make the host, how many of them were refused and answered so, how
    many were refused with no answer changed, and each that ended in a fault or was answered otherwise. The last line is
    `N refused, M differences`, and the status is 0 where M is 0. LETTERS is how long the title of the first item is, 1
    if not given. COPY is a folder for the copy, which then stays; PARTS is how many runs go on side by side, 1 if not
    set.
    """
    words = list(scripts) or SCRIPTS
    with Tool("refuse_growth") as tool:
        prepare(tool, letters)
        cases, counted = tool.place / "cases", tool.place / "counted"
        shutil.rmtree(cases, ignore_errors=True)
        cases.mkdir()
        # The toolchain refuses the request of one number, and builds the program for each number. So it is one number for all runs, and a run makes
        # requests of its own before its script, as many as leave the n-th of the script to be that one.
        for word in words:
            write_case(cases, word, word, 0, FAR)
            write_case(cases, f"before-{word}", word, FAR, FAR)
        tool.rt("try", "--fail-alloc", FAR, "--seconds", 60, "--cases", cases, output=counted)
        number = plan(counted, cases, words)
        return tally(counted, refused_runs(tool, cases, number), words)


# ---- the tests

TOLD = re.compile(r"^test |panicked|signal|requires")


def tried(crate, *arguments):
    """What `rt try` says of the tests of a crate."""
    command = ["rt", "try", "--test", "--seconds", "300", *arguments]
    return subprocess.run(command, cwd=CRATES / crate, stdout=subprocess.PIPE, stderr=subprocess.STDOUT, text=True, errors="replace", check=False).stdout


def has_tests(crate):
    return any(re.search(r"^#\[test\]", it.read_text(encoding="utf-8"), re.MULTILINE) for it in (CRATES / crate / "src").rglob("*.rt"))


def refuse_allocations(count: int = 60, *crates):
    """Runs the tests of crates with the first, second, .. allocation of each test refused in turn.

    They are the tests of each crate that has some, or of the crates given. It goes up to a count (60 if none is given),
    and prints which tests failed and the lines at which they stopped. A test fails where the refused allocation was its
    own: it should stop at a line of its own that wants an answer, and none should stop inside a crate or answer
    something else in its place. It stops where the tests of a crate do not pass with no allocation refused.
    """
    needs("rt")
    for crate in crates or sorted(it.name for it in CRATES.iterdir() if has_tests(it.name)):
        if not re.search(r"^test result: ok\. [1-9]", tried(crate), re.MULTILINE):
            print(f"{crate}: its tests do not run, or fail where no allocation is refused", file=sys.stderr)
            return 2
        for number in range(1, count + 1):
            print(f"== {crate}: allocation {number} refused", flush=True)
            lines = collections.Counter(it for it in tried(crate, "--fail-alloc", str(number)).splitlines() if TOLD.search(it))
            for line, often in sorted(lines.items(), key=lambda it: (-it[1], it[0]))[:20]:
                print(f"{often:7} {line}")
    return 0
