"""Compares what a host answers to scripts at random where a device or a store fails with what it answers where none does."""

import collections
import json
import os
import re
import shutil
import sys
import tempfile
from pathlib import Path

from oai.author import Author
from oai.refusals import outcomes
from oai.tools import Tool

# Where the scripts that show differences are written.
FOLDER = Path(os.environ.get("FOLDER", tempfile.gettempdir()))

# What stands between the parts of an input: no line of a deposit has it.
BETWEEN = "\x1e"

CACHES = [1, 2, 64]

# The troubles, how many there are of each for a script, and whether it must come: else a script may have no more calls of that kind.
TROUBLES = {"device": (2, True), "memory": (1, True), "room": (1, False), "store": (1, True), "refused": (1, True), "pages": (1, False)}

# Those of a device, which counts its calls that fail.
OF_DEVICES = ("device", "memory", "room")

# The file of the store by which a page is joined with its neighbour, what is done there, twice, where that cannot be read, and what in the copy: the
# device is told too, by a read of no byte of a page that is never named.
MERGING = "crates/oai_paged/src/merging.rt"
STAYS = "        Err(_) => merged,\n"
TELLS = "        Err(_) => {\n            let _ = pages.read_range(oai_pool::MAX_PAGES, 0, &mut []);\n            merged\n        }\n"

# What came of one trouble: exchanges that failed, calls of the device that did, pages that were not joined, and what differs.
COURSE = r"(\d+) exchanges and (\d+) calls of the device failed, (\d+) unjoined(?: but (the pages|exchange \d+) differs?)?"

# The kinds of lines that a deposit may have beside its first.
MORE = [Author.deposit, Author.deposit, Author.deposit, Author.delete, Author.add_set, Author.purge, Author.bad_line]


def exchange(author, is_late):
    """An exchange at random; a deposit may have several lines."""
    it = author.exchange(is_late)
    repository = author.host.repositories.get(it.target.removeprefix("/deposit/"))
    if it.method == "POST" and it.target.startswith("/deposit/") and repository:
        lines = [it.body] + [author.choice(MORE)(author, repository) for _ in range(author.choice([0, 0, 0, 1, 2, 6]))]
        # (what a purge deposits may be for another repository)
        it = it._replace(body="\n".join([lines[0]] + [body for _, target, body in lines[1:] if target == it.target]))
    author.host.exchange(*it)
    return it.line()


def last_exchanges(author):
    """What tells all that the repositories have, at the end of a script."""
    for name in author.host.repositories:
        for query in ("verb=Identify", "verb=ListSets", "verb=ListRecords&metadataPrefix=oai_dc"):
            yield f"{author.moment} GET /oai/{name}?{query}"


def script(seed, lines):
    """The input of one script: the configuration, the troubles, and the exchanges."""
    author = Author(seed)
    configuration = json.dumps({"cache": author.choice(CACHES)} | author.configuration)
    exchanges = [exchange(author, is_late=number * 4 > lines * 3) for number in range(lines)] + list(last_exchanges(author))
    troubles = [
        f"{name} {author.chooser.randrange(1_000_000)} {author.choice([0, 0, 1, 2, 3, 5, 9])}"
        for name, (count, _) in TROUBLES.items()
        for _ in range(count)
    ]
    return BETWEEN.join([configuration, "\n".join(troubles), *exchanges])


def write(cases, scripts, lines, seed):
    for one in range(seed, seed + scripts):
        (cases / f"{one}").write_text(script(one, lines), encoding="utf-8", newline="")


def watch(place):
    """Has the store of the copy tell the device of each page that it does not join; it stops where the store is not as it was."""
    path = place / MERGING
    text = path.read_text(encoding="utf-8")
    if text.count(STAYS) != 2:
        sys.exit(f"{MERGING}: {text.count(STAYS)} lines `{STAYS.strip()}`, not 2: where does a page stay that is not joined?")
    path.write_text(text.replace(STAYS, TELLS), encoding="utf-8")


def troubles_in(path):
    return path.read_text(encoding="utf-8").split(BETWEEN, 2)[1].split("\n")


def is_told(name, course):
    """Whether there was trouble, each call of a device that failed is told by an exchange of its own that failed or left a page that was not joined,
    and all else is as without trouble; where a page was not joined there may be another number of them."""
    failures, calls, unjoined = (int(course[it]) for it in (1, 2, 3))
    comes = calls if name in OF_DEVICES else failures
    if TROUBLES[name][1] and comes == 0:
        return False
    if name in OF_DEVICES and calls != failures + unjoined:
        return False
    return course[4] is None or (course[4] == "the pages" and unjoined > 0)


def differences_of(outcome, troubles, counts):
    """What differs in one outcome; it counts the runs and the failures."""
    found = re.search(r"undisturbed (\d+) (\d+)", outcome)
    if not found:
        return [f"the script without trouble: {outcome}"]
    counts["calls of devices"] += int(found[1])
    counts["calls of stores"] += int(found[2])
    differences = []
    for line in troubles:
        name = line.split(" ")[0]
        course = re.search(rf"{line}: {COURSE}", outcome)
        if course is None or not is_told(name, course):
            differences.append(course[0] if course else f"{line}: {outcome}")
        else:
            counts[f"runs with {name}"] += 1
            counts[f"failures of {name}"] += int(course[1])
            counts[f"unjoined with {name}"] += int(course[3])
    return differences


def tally(cases, told):
    """Says what came of each script."""
    found, counts, differing = outcomes(told), collections.Counter(), 0
    paths = sorted((it for it in cases.iterdir() if it.suffix == ""), key=lambda it: int(it.name))
    for path in paths:
        differences = differences_of(found.get(path.name, "no outcome"), troubles_in(path), counts)
        for it in differences:
            print(f"seed {path.name}, {it}")
        if differences:
            shutil.copy(path, FOLDER / f"fuzz-failures-{path.name}.txt")
        differing += len(differences)
    print(f"{counts['calls of devices']} calls of devices, {counts['calls of stores']} of stores in the scripts without trouble")
    for name in TROUBLES:
        unjoined = f"; pages not joined: {counts[f'unjoined with {name}']}" if name in OF_DEVICES else ""
        print(f"{name}: {counts[f'runs with {name}']} runs, in which {counts[f'failures of {name}']} exchanges failed{unjoined}")
    print(f"{len(paths)} scripts, {differing} differences")
    return int(differing > 0)


def fuzz_failures(scripts: int = 300, lines: int = 60, seed: int = 71):
    """Compares what a host answers to scripts at random where a device or a store fails with what it answers where none does.

    A script is a number of exchanges with three repositories, as those of `fuzz`, but that a deposit may have several
    lines. A program is made in a copy of the crates, and compiled with checks and without a proof. It makes the
    exchanges of each script with no trouble, and then once for each of seven troubles, at calls that are drawn at
    random:
      device     a call of the device of the pages fails, and a second one a few calls later, or not; two of the seven
      memory     the device is refused memory, in the same way
      room       the device has room for a few pages only; some writes fail before there is more
      store      a call of the store fails, and a second one a few calls later, or not
      refused    the store is refused memory, in the same way
      pages      a call of the store that asks for pages finds none
    An exchange that fails is made once more, up to three times; of a deposit the lines that were not done. Each failure
    must be told as one of its cause, with nothing else; all other answers, and with the first three troubles also how
    many pages are named at the end, must be those without trouble. One failure is told by no answer: where a page is to
    be joined with its neighbour, and that cannot be read, both stay. In the copy the store tells the device when it
    leaves a page so. With the first three troubles as many calls must have failed as exchanges failed and pages were
    not joined, together; and only where some were not joined may there be another number of pages at the end. It says
    how many exchanges failed by each trouble and how many pages were not joined, and of each difference the seed of its
    script, which it writes into a file of the folder FOLDER (that of temporary files if it is not set). The last line
    is `N scripts, M differences`; the status is 0 where M is 0. A script has a seed of its own, SEED and the ones after
    it. COPY is a folder for the copy, which then stays.
    """
    with Tool("fuzz_failures") as tool:
        watch(tool.place)
        cases, told = tool.place / "cases", tool.place / "outcomes"
        shutil.rmtree(cases, ignore_errors=True)
        cases.mkdir()
        write(cases, scripts, lines, seed)
        tool.rt("try", "--seconds", 300, "--cases", cases, output=told)
        return tally(cases, told)
