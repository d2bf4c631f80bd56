"""Checks the pages of the repository."""

import collections
import functools
import re

from oai.arguments import usage_of
from oai.crates import below, proved, uses
from oai.marks import is_counted
from oai.names import GROUPS, script
from oai.programs import TOP
from oai.statuses import manual_synopsis

CRATES = uses()
PAGES = ["README.md", *(f"docs/{page.name}" for page in sorted((TOP / "docs").glob("*.md")))]
CRATE_PAGES = [f"crates/{page.parent.name}/README.md" for page in sorted(TOP.glob("crates/*/README.md"))]
WORDS = {
    word
    for folder in ("src", "specs")
    for file in TOP.glob(f"crates/*/{folder}/**/*")
    if file.suffix in (".rt", ".antt")
    for word in re.findall(r"\w+", file.read_text())
}
# A name in backquotes, which the repository has somewhere, or which is of OAI-PMH or of the toolchain.
NAME = re.compile(r"\b(?:[A-Za-z]\w*_\w+|[a-z]\w*[a-z][A-Z]\w*|[A-Z]\w*[a-z][A-Z]\w*)\b")
OUTSIDE = {"setDescription", "OnPartial"}
USERS = ["docs/CONFIGURATION.md", "docs/OPERATIONS.md", "docs/PROTOCOL.md"]
README_LINES, ALL_LINES, COLUMNS, CRATE_LINES = 120, 2000, 120, 40

# A path ends so, or begins with a folder of the repository or of a crate.
SUFFIXES = (".rt", ".antt", ".py", ".edit", ".md", ".pl")
FOLDERS = {"src", "specs", "proofs", "must-fail", "planted", ".ci"} | {it.name for it in [*TOP.iterdir(), *TOP.glob("crates/*")] if it.is_dir()}

# A number of such things in a page has to be one of COUNTS.
COUNTED = re.compile(r"\b(\d[\d,]*) (crates|mutants|laws|tests|scripts|modules)\b")

# A number that a page gives, and the constant of a crate that has it.
LIMITS = {
    "docs/ARCHITECTURE.md": {"16,384": ("oai_device", "PAGE_BYTES"), "16,000": ("oai_places", "MAX_WHOLE_BYTES"), "65,536": ("oai_serving", "READ_BYTES")},
    "docs/FORMAT.md": {"2,097,152": ("oai_journal", "MAX_BODY"), "67,108,864": ("oai_journal", "MAX_FIRST_BODY"), "32": ("oai_journal", "MAX_NAME")},
    "docs/OPERATIONS.md": {
        "1,048,576": ("oai_item", "MAX_ITEM_BYTES"), "10,000": ("oai_names", "MAX_SETS"), "512": ("oai_names", "MAX_IDENTIFIER_BYTES"),
        "256": ("oai_names", "MAX_SET_SPEC_BYTES"), "2,097,152": ("oai_front", "MAX_DEPOSIT_BYTES"), "16,384": ("oai_front", "MAX_HEAD_BYTES"),
        "64": ("oai_front", "MAX_HEAD_FIELDS"), "1,024": ("oai_serving", "MAX_LINKS"), "4,294,967,295": ("oai_pool", "MAX_PAGES"),
    },
    "docs/PROTOCOL.md": {
        "1,048,576": ("oai_front", "MAX_BODY_BYTES"), "2,097,152": ("oai_front", "MAX_DEPOSIT_BYTES"), "16,384": ("oai_front", "MAX_HEAD_BYTES"),
    },
}  # fmt: skip
problems = []


def problem(text):
    problems.append(text)


def defines(text, name, rust):
    """Whether a file of that text defines the name: a function or a type of Rust, a word or a field of a definition file."""
    last = re.escape(name.split("::")[-1])
    if rust:
        return re.search(rf"\b(fn|struct|enum|trait|type|const)\s+{last}\b", text) is not None
    return re.search(rf"^ *(pub )?((abbrev|unfoldable|record|data|ruleset) )?(pub )?{last}(?![\w'-])", text, re.MULTILINE) is not None


def lines_of(path):
    return (TOP / path).read_text().rstrip("\n").split("\n")


def check_size(path, most):
    """Complains of a page that has more lines, or a line that has more than 120 columns."""
    lines = lines_of(path)
    if most and len(lines) > most:
        problem(f"{path}: {len(lines)} lines, more than {most}")
    for number, line in enumerate(lines, 1):
        if len(line) > COLUMNS and not line.startswith("    "):
            problem(f"{path}:{number}: {len(line)} columns, more than {COLUMNS}")


def check_sizes():
    """The pages of README.md and docs/, and all of docs/ together."""
    for page in PAGES:
        check_size(page, README_LINES if page == "README.md" else None)
    together = sum(len(lines_of(page)) for page in PAGES if page.startswith("docs/"))
    if together > ALL_LINES:
        problem(f"docs: {together} lines, more than {ALL_LINES}")


def check_crate(crate):
    """The README of a crate: its size, its links, and a caller in a block of code."""
    path = f"crates/{crate}/README.md"
    if not (TOP / path).exists():
        problem(f"no {path}")
        return
    check_size(path, CRATE_LINES)
    check_links(path)
    if "```" not in (TOP / path).read_text():
        problem(f"{path}: no caller is shown")


def headings(file):
    """The headings of a page, as links name them."""
    found = re.findall(r"^#+ (.*)$", file.read_text(), re.MULTILINE)
    return {re.sub(r"[^\w\- ]", "", heading).strip().lower().replace(" ", "-") for heading in found}


def check_links(path):
    """Every link to a file of this repository, and the names that a link of README.md has for its text."""
    folder = (TOP / path).parent
    for text, target in re.findall(r"\[([^]]*)\]\(([^)\s]+)\)", (TOP / path).read_text()):
        if re.match(r"[a-z]+:|#", target):
            continue
        name, _, heading = target.partition("#")
        file = folder / name
        if not file.exists():
            problem(f"{path}: no {target}")
        elif heading and heading not in headings(file):
            problem(f"{path}: {name} has no heading {heading}")
        elif path == "README.md" and file.suffix in (".rt", ".antt"):
            for name in re.findall(r"`([^`]+)`", text):
                if not defines(file.read_text(), name, file.suffix == ".rt"):
                    problem(f"{path}: {target} does not define {name}")


def files(crate, folder, suffix):
    return sorted((TOP / "crates" / crate / folder).rglob(f"*{suffix}"))


def check_proved():
    """The table of what is proved: sentence, crate and functions, definitions and their file."""
    path = "docs/THEOREMS.md"
    rows = re.findall(r"^\| [^|]+ \| (oai_\w+) ([^|]+) \| ([^|]+), (\w+) \|$", (TOP / path).read_text(), re.MULTILINE)
    if len(rows) < 15:
        problem(f"{path}: the table of what is proved has {len(rows)} rows that can be read")
    for crate, functions, words, module in rows:
        sources = [file.read_text() for file in files(crate, "src", ".rt")]
        for name in re.findall(r"`([^`]+)`", functions):
            if not any(defines(text, name, True) for text in sources):
                problem(f"{path}: {crate} has no {name}")
        found = [file for other in proved() for file in files(other, "specs", f"{module}.antt")]
        for name in re.findall(r"`([^`]+)`", words):
            if not any(defines(file.read_text(), name, False) for file in found):
                problem(f"{path}: no {module}.antt defines {name}")


def check_architecture():
    """In a cell of a table: `crate/specs/File.antt`: `word`, `word`; `Other.antt`: `word`; the crate is the last one that was named."""
    path = "docs/ARCHITECTURE.md"
    for number, line in enumerate(lines_of(path), 1):
        if line.startswith("|"):
            for cell in line.strip("| ").split(" | "):
                check_cell(f"{path}:{number}", cell)


def check_theorems():
    """In an entry of a list, in the same form."""
    path = "docs/THEOREMS.md"
    entries = re.findall(r"^- (?:.*\n)(?:  .*\n)*", (TOP / path).read_text() + "\n", re.MULTILINE)
    for entry in entries:
        check_cell(f"{path}: {entry[2:40]}", entry)


def check_scripts():
    """scripts/README.md has a row for each script, with its arguments, and each script that is called somewhere is there."""
    usages = {name: usage_of(name, script(name)) for group in GROUPS.values() for name in group}
    rows = dict(re.findall(r"^\| `(([a-z-]+)(?: [^`]*)?)` \|", (TOP / "scripts/README.md").read_text(), re.MULTILINE))
    rows = {name: called for called, name in rows.items()}
    for name in sorted(usages.keys() ^ rows.keys()):
        problem(f"scripts/README.md: {name} {'has no row' if name in usages else 'is no script'}")
    for name in sorted(usages.keys() & rows.keys()):
        if rows[name] != usages[name]:
            problem(f"scripts/README.md: `{rows[name]}` is called `{usages[name]}`")
    readers = [*TOP.glob("crates/*/src/**/*.rt"), *TOP.glob("scripts/**/*.*"), *(TOP / page for page in [*PAGES, *CRATE_PAGES])]
    for path in readers:
        for name in re.findall(r"scripts/run ([a-z][a-z-]*)", path.read_text()):
            if name not in usages.keys() | {"help"}:
                problem(f"{path.relative_to(TOP)}: there is no script {name}")


def check_commands():
    """The README of a program has a row for each command of its usage, and no other; its man page and OPERATIONS name each. The usage of `oaihostd` is the
    synopsis of its man page, which `daemon-statuses` compares with its help."""
    usage = re.search(r'"usage: oaihost ([^"]*)"', (TOP / "crates/oai_startup/src/stop.rt").read_text())[1].split(" | ")
    synopses = [re.sub(r" \[--[^]]*\]", "", line).removeprefix("oaihostd ") for line in manual_synopsis() if not line.endswith(("--help", "--version"))]
    for program, called, man in (("oaihost", usage, "oaihost.1"), ("oaihostd", synopses, "oaihostd.8")):
        rows = re.findall(r"^\| `([a-z]+[]A-Z []*)` \|", (TOP / "crates" / program / "README.md").read_text(), re.MULTILINE)
        for command in sorted(set(called) ^ set(rows)):
            problem(f"crates/{program}/README.md: {command} {'has no row' if command in called else 'is no command'}")
        for page in (f"packaging/man/{man}", "docs/OPERATIONS.md"):
            for word in {command.split()[0] for command in called}:
                if not re.search(rf"\b{word}\b", (TOP / page).read_text()):
                    problem(f"{page}: nothing of {program} {word}")


def is_path(word):
    """Whether a word in backquotes is the path of a file or a folder of the repository, without a placeholder as CRATE."""
    parts = word.rstrip("/").split("/")
    if not re.fullmatch(r"[\w.*/-]+", word) or word.startswith(("/", "..")) or word in SUFFIXES or any(re.fullmatch(r"[A-Z]+|\.\.", it) for it in parts):
        return False
    return word.endswith(SUFFIXES) or len(parts) > 1 and parts[0] in FOLDERS


def is_found(word, homes):
    """Whether the path is one of the repository, of its folders `crates` and `scripts`, or of one of these crates, or of any if there is none; a name alone
    may stand anywhere in them."""
    crates = homes or CRATES
    places = [TOP, TOP / "crates", TOP / "scripts", *(TOP / "crates" / it for it in crates)]
    if any(True for place in places for _ in place.glob(word)):
        return True
    return "/" not in word and any(True for place in (places[3:] if homes else [TOP]) for _ in place.rglob(word))


def check_paths(path):
    """Each path in backquotes: of the repository, of a crate that the paragraph names, or of the page's own crate."""
    text = re.sub(r"^```.*?^```|^    [^\n]*$", "", (TOP / path).read_text(), flags=re.MULTILINE | re.DOTALL)
    own = [path.split("/")[1]] if path.startswith("crates/") else []
    for paragraph in re.split(r"\n\s*\n|\n(?=- |\|)", text):
        homes = own + [it for it in re.findall(r"\w+", paragraph) if it in CRATES]
        for word in re.findall(r"`([^`]+)`", paragraph):
            if is_path(word) and not is_found(word, homes) and not (own and is_found(word, [])):
                problem(f"{path}: there is no {word}")


@functools.cache
def names_of_all():
    """Each word of the sources, the proofs, the scripts, the page and what builds them."""
    folders = "crates/*/proofs/**/*.antt", "crates/*/*/*.edit", "scripts/**/*.*", "web/*.js", "web/*.conf", "bin/*", ".ci/run"
    texts = [path.read_text() for folder in folders for path in TOP.glob(folder)]
    return WORDS | set(CRATES) | {word for text in texts for word in re.findall(r"\w+", text)}


def check_names(path):
    """Each name in backquotes of more than one word stands somewhere in the repository."""
    text = re.sub(r"^```.*?^```|^    [^\n]*$", "", (TOP / path).read_text(), flags=re.MULTILINE | re.DOTALL)
    for quoted in re.findall(r"`([^`\n]+)`", text):
        for name in NAME.findall(quoted):
            if name not in names_of_all() | OUTSIDE:
                problem(f"{path}: nothing has the name {name}")


def check_crates_named(path):
    """Each crate in backquotes."""
    for name in re.findall(r"`((?:oai|tests)_[a-z]\w*)`", (TOP / path).read_text()):
        if name not in CRATES and name not in WORDS:
            problem(f"{path}: there is no crate {name}")


def counts():
    """What each page may count: the page, a form with the number, and how many there are."""
    yield "README.md", r"(\d+) crates", len(below(["oaihostd"]))


def check_counts():
    """The numbers of crates and the like, and the limits that pages give."""
    allowed = {(page, form % number if "%" in form else form.replace(r"(\d+)", str(number))) for page, form, number in counts()}
    for page in [*PAGES, *CRATE_PAGES]:
        for number, things in COUNTED.findall((TOP / page).read_text()):
            said = f"{number} {things}"
            if (page, said) not in allowed and not (page == "docs/PROVING.md" and things == "mutants"):
                problem(f"{page}: nobody counts '{said}', or it is another number")
    if not is_counted():
        problem("docs/PROVING.md: count the mutants anew by scripts/run marks")
    for page, numbers in LIMITS.items():
        for number, (crate, constant) in numbers.items():
            sources = "".join(file.read_text() for file in files(crate, "src", ".rt"))
            found = re.search(rf"const {constant}: \w+ = ([\d_]+);", sources)
            if found is None or found[1].replace("_", ",") != number:
                problem(f"{page}: {constant} of {crate} is {found and found[1]}, not {number}")
            if not re.search(rf"(?<![\d,]){number}(?!\d|,\d)", (TOP / page).read_text()):
                problem(f"{page}: nothing of {number}, which is {constant} of {crate}")


def check_cell(place, cell):
    folder = None
    file = None
    for word, colon in re.findall(r"`([^`]+)`(:?)", cell):
        named = re.fullmatch(r"(?:(oai_\w+)/specs/)?(\w+\.antt)", word)
        if named:
            folder = TOP / "crates" / named[1] / "specs" if named[1] else folder
            file = folder / named[2] if folder else None
            if file and not file.exists():
                problem(f"{place}: no {file.relative_to(TOP)}")
                file = None
            if not colon:
                file = None
        elif re.fullmatch(r"\w+", word) and not word.endswith("_law"):
            if file and not defines(file.read_text(), word, False):
                problem(f"{place}: {file.relative_to(TOP)} does not define {word}")
            if word not in WORDS:
                problem(f"{place}: no file of src/ or specs/ has the word {word}")


def sentences(path):
    """The sentences of a page's prose that have eight words or more."""
    text = re.sub(r"^```.*?^```|^    [^\n]*$|^[|#][^\n]*$", "\n\n", (TOP / path).read_text(), flags=re.MULTILINE | re.DOTALL)
    for paragraph in re.split(r"\n\s*\n|\n *- ", text):
        for sentence in re.split(r"(?<=[.:;]) ", " ".join(paragraph.split())):
            if len(sentence.split()) >= 8:
                yield sentence


def check_sentences():
    """No sentence stands in two of the pages of USERS."""
    homes = collections.defaultdict(set)
    for path in USERS:
        for sentence in sentences(path):
            homes[sentence.lower()].add(path)
    for sentence, paths in homes.items():
        if len(paths) > 1:
            problem(f"{' and '.join(sorted(paths))}: both have '{sentence}'")


def check_testing():
    """Each file of tests begins with a line that says what it tests."""
    for file in sorted(TOP.glob("crates/tests_*/src/**/*.rt")):
        if not file.read_text().startswith("//! "):
            problem(f"{file.relative_to(TOP)}: no line //! says what it tests")


def readme():
    """Checks the pages: their sizes, links and paths, and the names, commands and counts that stand in them.

    README.md has at most 120 lines, docs/*.md together 2,000, each line of these at most 120 columns; the README of a
    crate has at most 40 lines, and shows a caller: a block of code. Every crate of crates.txt that is not one of tests
    has one. Every link to a file of this repository leads to one, and to a heading of it where it names one; every path
    in backquotes leads to a file or a folder, and every crate and every name of several words in backquotes is there. In README.md a link to a file
    whose text is names in backquotes leads to a file that defines each of them. In docs/THEOREMS.md a row of the table
    of what is proved names functions of a crate's src/, then definitions of specs/, and a file of one of these crates.
    There, and in the tables of docs/ARCHITECTURE.md, each definition stands in the file that is named before it, and
    each other word in backquotes is a word of src/ or specs/. The README of a program has a row for each of its
    commands. The number of crates, of mutants and of limits that are constants is the one in the sources. No sentence
    stands in two of CONFIGURATION, OPERATIONS and PROTOCOL. Each file of tests says what it tests. scripts/README.md
    has a row for each script, with its arguments, and each script that a page or a comment calls is there. The last
    line is `N problems`.
    """
    check_sizes()
    for crate in proved():
        check_crate(crate)
    for path in [*PAGES, "scripts/README.md"]:
        check_links(path)
    for path in [*PAGES, "scripts/README.md", *CRATE_PAGES]:
        check_paths(path)
        check_crates_named(path)
        check_names(path)
    for check in (check_proved, check_architecture, check_theorems, check_sentences, check_testing, check_counts, check_commands, check_scripts):
        check()
    for text in problems:
        print(text)
    print(f"{len(problems)} problems")
    return int(bool(problems))
