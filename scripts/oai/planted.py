"""Tries the mutants of the crates that stand in planted/.

Bugs of different functions share a check, as a batch. Where a function is not proved, a check may pass over those that call it.
So no function of a batch calls another one of it, and each is judged by its own goals.
"""

import hashlib
import json
import os
import re
import shutil
import subprocess
import sys
import tempfile
from concurrent.futures import ThreadPoolExecutor, as_completed

from oai.crates import below
from oai.marks import mark, write_sentence
from oai.programs import TOP, needs

# How many bugs share a check at most: more would print more than a check tells of.
MOST = 16

# Where an edit may make changes.
FOLDERS = ("src", "specs", "proofs")

# The head of a function, with its indent and its name.
FUNCTION = re.compile(r"^( *)(?:pub(?:\([^)]*\))? )?(?:const )?fn (\w+)", re.M)

# A call, with the name of the function.
CALL = re.compile(r"\b(\w+)(?:::<[^>]*>)?\(")

# The head of an impl: the trait, where it is of one, and the type.
IMPL = re.compile(r"^impl(?:<[^\n]*?>)? (?:([\w:<>, ]+) for )?(\w+)", re.M)

# What a check says of a proof file that names something which the edit took away.
TAKEN_AWAY = re.compile(r"has no field|is not in scope|has no `|which was (?:not admitted|rejected)")

# The head of what a check says at a place of a file; the lines behind it, up to the next head or the next verdict, are of the same.
PLACED = re.compile(r"^(?:note: )?(?:\./)?(\S+?):\d+:\d+: (?:(error)\b)?")

# A line that belongs to no place.
APART = re.compile(r"^(?:fn|enum|struct|trait|impl|help|warning|statements|crate|logic|logic=\S+|so far|axioms|empty contracts)\b")

# What a check says of a definition that the edit made one that cannot be read: then nothing was tried.
OF_SPECS = re.compile(r"^(?:\./)?specs/\S+: error: ", re.M)

# The line of an edit that names the crate of tests or the script that refuses it, where no clause does.
BY_TESTS = re.compile(r"^refused: by (tests_\w+|scripts/run [\w-]+)$", re.M)

# What is reported of a mutant that a check judged.
REFUSED, NAMED, TESTED, PROVED = "refused", "only named", "proved: refused by its tests alone", "NOT REFUSED"


class Edit:
    """A mutant: the changes that it makes, and the functions in which it makes them."""

    def __init__(self, path, texts):
        self.name = os.path.basename(path).removesuffix(".edit")
        self.changes = read_changes(path)
        self.tests = tests_of(path)
        self.functions = functions_of(self.changes, texts)
        self.digest = digest_of(self.changes)

    def may_share(self):
        """Whether all that it changes stands in functions, so that it may be tried beside others."""
        return None not in self.functions


class Judged:
    """What became of the bugs of a crate, kept in its folder `out`: a run that was stopped goes on where it ended.

    A verdict is of one edit and of the texts of the crate and of those below it. Where one of them changed, it holds no more.
    """

    def __init__(self, name):
        self.path = f"crates/{name}/out/planted.json"
        self.texts = digest_of([sources_of(f"crates/{it}") for it in sorted(below([name]))])
        self.verdicts = {}
        if os.path.isfile(self.path):
            with open(self.path, encoding="utf-8") as it:
                kept = json.load(it)
            self.verdicts = kept["verdicts"] if kept["texts"] == self.texts else {}

    def of(self, edit):
        """What became of an edit; None where no check judged it."""
        return self.verdicts.get(f"{edit.name} {edit.digest}")

    def add(self, edit, verdict):
        self.verdicts[f"{edit.name} {edit.digest}"] = verdict
        os.makedirs(os.path.dirname(self.path), exist_ok=True)
        with open(f"{self.path}.new", "w", encoding="utf-8") as it:
            json.dump({"texts": self.texts, "verdicts": self.verdicts}, it, indent=1)
        os.replace(f"{self.path}.new", self.path)


def digest_of(told):
    return hashlib.sha256(json.dumps(told, sort_keys=True).encode()).hexdigest()


def read_changes(path):
    """The changes of an edit, each a file, the text that stands once in it, and the text in its place."""
    changes, file, old = [], "", ""
    with open(path, encoding="utf-8") as lines:
        for line in lines.read().split("\n"):
            if line.startswith("file: "):
                file = line.removeprefix("file: ").strip()
            elif line.startswith("old: "):
                old = line.removeprefix("old: ")
            elif line.startswith("new:"):
                changes.append((file, old, line.removeprefix("new:").removeprefix(" ")))
    return changes


def tests_of(path):
    """The crate of tests that an edit names as the one that refuses it, or None."""
    with open(path, encoding="utf-8") as it:
        named = BY_TESTS.search(it.read())
    return named and named[1]


def functions_of(changes, texts):
    """The functions in which the changes are made, one after the other; None is among them where one is made in no function."""
    functions, texts = set(), dict(texts)
    for file, old, new in changes:
        text = texts.get(file, "")
        functions.add(function_at(file, text, old))
        texts[file] = text.replace(old, new)
    return functions


def function_at(file, text, old):
    """The path of the function of a file that the old text stands in, as a check names it; None where it stands in none."""
    at = text.find(old)
    begun = [it for it in FUNCTION.finditer(text) if it.start() < at + len(old)]
    if not file.startswith("src/") or at < 0 or not begun:
        return None
    indent, name = begun[-1].groups()
    if re.search(rf"^{indent}}}$", text[begun[-1].start() : at], re.M):
        return None
    module = [it for it in file.removeprefix("src/").removesuffix(".rt").split("/") if it not in ("lib", "main", "mod")]
    return "::".join([*module, *holder_at(text[:at], indent), name])


def holder_at(text, indent):
    """The impl that a function behind this text stands in, as a check names it: the type, then the trait and the types that it is of."""
    heads = IMPL.findall(text)
    if not indent or not heads:
        return []
    trait, kind = heads[-1]
    words = [it.split("::")[-1] for it in re.findall(r"[\w:]+", trait)]
    return [kind + "".join(it for it in words if not is_type_parameter(it))]


def is_type_parameter(word):
    return len(word) == 1


def applied(texts, edit):
    """The texts with the edit's changes; None where one cannot be made."""
    texts = dict(texts)
    for file, old, new in edit.changes:
        if texts.get(file, "").count(old) != 1:
            return None
        texts[file] = texts[file].replace(old, new)
    return texts


def sources_of(crate):
    """The texts of a crate in which an edit may make changes."""
    texts = {}
    for top in FOLDERS:
        for folder, _, names in os.walk(f"{crate}/{top}"):
            for name in names:
                path = f"{folder}/{name}"
                with open(path, encoding="utf-8") as it:
                    texts[os.path.relpath(path, crate)] = it.read()
    return texts


def calls_in(texts):
    """For the name of each function of the sources, the names of those that it may call. Functions of one name are taken for one."""
    called = {}
    for file, text in texts.items():
        if file.startswith("src/"):
            heads = list(FUNCTION.finditer(text))
            ends = [it.start() for it in heads[1:]] + [len(text)]
            for head, end in zip(heads, ends):
                called.setdefault(head[2], set()).update(CALL.findall(text[head.end() : end]))
    return {name: words & called.keys() for name, words in called.items()}


def reached_from(function, calls):
    """The names of the functions that a function calls, itself or through others, and its own."""
    reached, left = set(), [function.split("::")[-1]]
    while left:
        name = left.pop()
        if name not in reached:
            reached.add(name)
            left.extend(calls.get(name, ()))
    return reached


def reaches(functions, others, calls):
    """Whether one of the functions calls one of the others, itself or through others, or is one of them."""
    names = {it.split("::")[-1] for it in others}
    return any(reached_from(it, calls) & names for it in functions)


def check(crate, texts, before):
    """What a check says of the crate with these texts, which are then put back."""
    changed = [it for it in texts if texts[it] != before[it]]
    for file in changed:
        with open(f"{crate}/{file}", "w", encoding="utf-8") as it:
            it.write(texts[file])
    # (by one job: a second one would load the libraries anew)
    ran = subprocess.run(["rt", "check", "--jobs", "1"], cwd=crate, stdout=subprocess.PIPE, stderr=subprocess.STDOUT, text=True, errors="replace")
    for file in changed:
        with open(f"{crate}/{file}", "w", encoding="utf-8") as it:
            it.write(before[file])
    return ran.stdout


def unproved(said):
    """The functions that a check found no proof for by their own goals, and not for what they call alone."""
    told = re.findall(r"^fn \w+?::(\S+): (no proof.*|not proved.*)$", said, re.M)
    return {path for path, why in told if "it calls `" not in why}


def errors_in(said, folder, deep=True):
    """The errors that a check tells of files in the folder, whole: an error goes on over several lines, and what it says of a name may stand on any."""
    errors, is_own = [], False
    for line in said.split("\n"):
        head = PLACED.match(line)
        if head:
            inside = head[1].startswith(f"{folder}/") and (deep or "/" not in head[1][len(folder) + 1 :])
            is_own = inside and head[2] is not None
            if is_own:
                errors.append(line)
        elif is_own and line and not APART.match(line):
            errors[-1] += "\n" + line
        else:
            is_own = False
    return errors


def are_of_names(errors):
    """Whether each of the errors is that a proof file names what is gone."""
    return all(TAKEN_AWAY.search(it) for it in errors)


def is_only_named(said, functions):
    """Whether all that a check says against these functions is that a proof file names what is gone."""
    for function in functions:
        if re.search(rf"^fn \w+?::{re.escape(function)}: .*did not prove", said, re.M):
            return False
        errors = errors_in(said, f"proofs/{function.replace('::', '/')}")
        if not errors or not are_of_names(errors):
            return False
    return True


def refutes_a_lemma(said):
    """Whether a check says of a lemma more than that it names what is gone: then a function whose proof stands on it is not refused for a name."""
    return not are_of_names(errors_in(said, "proofs", deep=False))


def batches_of(edits, texts):
    """The edits that may share a check in batches, with the texts that each makes."""
    calls = calls_in(texts)
    left = [it for it in edits if it.may_share() and applied(texts, it)]
    while left:
        batch, changed, used, later = [], texts, set(), []
        for edit in left:
            made = applied(changed, edit)
            apart = not reaches(edit.functions, used, calls) and not reaches(used, edit.functions, calls)
            if made and apart and len(batch) < MOST:
                batch, changed, used = [*batch, edit], made, used | edit.functions
            else:
                later.append(edit)
        yield batch, changed
        left = later


def try_alone(crate, edit, texts):
    """What becomes of one edit in a check of its own; why it is not judged, where it is not."""
    changed = applied(texts, edit)
    if changed is None:
        return "CANNOT BE APPLIED"
    said = check(crate, changed, texts)
    if "logic=proved" in said:
        return TESTED if edit.tests else PROVED
    if "logic=not-proved" not in said or OF_SPECS.search(said):
        return "CANNOT BE READ"
    return NAMED if is_only_named(said, unproved(said)) and not refutes_a_lemma(said) else REFUSED


def try_batches(crate, edits, texts, judged):
    """Tries edits that may share a check in batches, and keeps which of them a batch refuses by more than a name."""
    for batch, changed in batches_of(edits, texts):
        said = check(crate, changed, texts)
        own = unproved(said)
        if "logic=not-proved" not in said:
            continue
        for edit in batch:
            if edit.functions & own and not is_only_named(said, edit.functions & own):
                judged.add(edit, REFUSED)


def try_all(crate, edits, texts, judged):
    """What becomes of each edit of a crate: in batches first, and alone what a batch does not tell."""
    try_batches(crate, [it for it in edits if not judged.of(it)], texts, judged)
    found = {}
    for edit in edits:
        found[edit] = judged.of(edit) or try_alone(crate, edit, texts)
        if found[edit] in (REFUSED, NAMED, TESTED, PROVED):
            judged.add(edit, found[edit])
    return found


def planted_in(crate, texts, wanted):
    """The mutants of a crate: those of the wanted names, or all where none is named."""
    folder = f"{crate}/planted"
    names = sorted(it.removesuffix(".edit") for it in os.listdir(folder) if it.endswith(".edit"))
    return [Edit(f"{folder}/{it}.edit", texts) for it in names if not wanted or it in wanted]


def planted_file(named):
    """The file of an edit that is named as CRATE/EDIT."""
    crate, _, edit = named.partition("/")
    return f"crates/{crate}/planted/{edit}.edit"


def unneeded_for(name):
    """What a copy of the repository can do without: its history, and the kept proofs of crates but the named one, whose libraries are enough."""

    def unneeded(folder, names):
        crate, last = os.path.split(folder)
        is_of_another = last == "out" and os.path.basename(crate) != name
        return {it for it in names if it == ".git" or (is_of_another and it == "incremental")}

    return unneeded


def tried(name, wanted):
    """The wanted edits of a crate, and what becomes of each: what was kept, and the others tried on a copy of the repository."""
    judged, edits = Judged(name), planted_in(f"crates/{name}", sources_of(f"crates/{name}"), wanted)
    if all(judged.of(it) for it in edits):
        return edits, {it: judged.of(it) for it in edits}
    with tempfile.TemporaryDirectory(prefix="planted-") as room:
        shutil.copytree(".", f"{room}/copy", ignore=unneeded_for(name), symlinks=True)
        crate = f"{room}/copy/crates/{name}"
        texts = sources_of(crate)
        if "logic=proved" not in check(crate, texts, texts):
            sys.exit(f"planted: {name} is not proved without a bug")
        return edits, try_all(crate, edits, texts, judged)


def told(name, edits, found):
    """Prints what became of the mutants of a crate, and marks those that are killed only by a dangling name; how many were killed."""
    for edit in edits:
        if found[edit] != REFUSED:
            print(f"{name}/{edit.name}: {found[edit]}")
        if found[edit] in (REFUSED, NAMED):
            mark(TOP / "crates" / name / "planted" / f"{edit.name}.edit", found[edit] == NAMED)
    refused = sum(it in (REFUSED, NAMED, TESTED) for it in found.values())
    print(f"{name}: {refused} of {len(edits)} refused", flush=True)
    return refused


def planted(*names):
    """Tries the mutants of planted/, which the prover must kill like those of must-fail/.

    They are crates/NAME/planted/*.edit; NAMES are crates, or single mutants as CRATE/EDIT, and all if none is given.
    The gate tries each mutant by a check of its own: here those of different functions share one check. It works on
    copies, a crate in each, and over kept work. What became of each mutant is kept in crates/NAME/out, under a digest
    of the texts that it was judged on, so a run that was stopped goes on where it ended. It names each mutant that
    survived, and each that was killed only by a dangling name, that is because a proof file names what the edit took
    away, which says little of the contract: the file of such a mutant gets the line `refused: by a name`, and
    docs/PROVING.md counts these. A mutant with a line `refused: by TESTS` is proved, and named; these tests kill it,
    and are not run here. Its last line is `N refused, M not`; the status is 0 where M is 0.
    """
    needs("rt")
    unknown = [it for it in names if not os.path.isdir(f"crates/{it}/planted") and not os.path.isfile(planted_file(it))]
    if unknown:
        sys.exit(f"planted: there are no mutants in {' '.join(unknown)}")
    wanted = {it.split("/")[0]: {edit.partition("/")[2] for edit in names if edit.startswith(f"{it.split('/')[0]}/")} for it in names}
    listed = [it for it in sorted(os.listdir("crates")) if os.path.isdir(f"crates/{it}/planted") and (not names or it in wanted)]
    refused = others = 0
    # (the crate with the most bugs is the last to end, so it begins first)
    listed.sort(key=lambda it: -len(os.listdir(f"crates/{it}/planted")))
    with ThreadPoolExecutor(len(os.sched_getaffinity(0))) as pool:
        tries = {pool.submit(tried, it, wanted.get(it)): it for it in listed}
        for done in as_completed(tries):
            edits, found = done.result()
            good = told(tries[done], edits, found)
            refused, others = refused + good, others + len(edits) - good
    write_sentence()
    print(f"{refused} refused, {others} not")
    return 1 if others else 0
