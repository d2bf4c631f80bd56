"""Lists the contracts, from the sources.

An entry is a law, or a public function that the crate exports and whose clauses cite relations of specs/ (their names begin with a verb, as `IsAsked` and
`Keeps` do): its name, of a law the first sentence of its doc comment, and these relations, behind those of a file the file. Functions that
follow one another and have the same relations are one entry.
"""

import collections
import itertools
import pathlib
import re
import textwrap

from oai.crates import proved
from oai.programs import TOP

HEAD = """# Contracts

Written by `scripts/run contracts` from the sources. Of each crate: its laws, each with the first sentence of its doc
comment, and the functions that it exports whose clauses cite relations of `specs/`, with these relations, as `Word`
(File). The file is the crate's own unless another crate is named. What a function does is in its doc comment. Functions
that follow one another and cite the same are one entry.
"""
USE = re.compile(r"ghost use Rattle\.(oai_\w+)\.specs\.(\w+)\.\{([^}]*)\}")
OWNER = re.compile(r"^(?:impl(?:<[^{]*?>)? (?:(?!.* for )(\w+))|pub trait (\w+))", re.MULTILINE)
RELATION = re.compile(r"^(?:Is|Are|Has|Have|Was|Can|Does|[A-Z][a-z]+[^aeiou]s)(?:[A-Z]\w*)?$")
FUNCTION = re.compile(r"((?:^ *///.*\n)+)(?:^ *#\[.*\n)*^( *)(?:pub )?fn (\w+)", re.MULTILINE)


def crates():
    """The libraries of crates.txt, those of tests apart."""
    return [name for name in proved() if (TOP / "crates" / name / "src/lib.rt").exists()]


def exported(crate):
    """The names that the crate exports."""
    uses = re.findall(r"pub use [^;]*;", (TOP / "crates" / crate / "src/lib.rt").read_text(), re.DOTALL)
    return {word for use in uses for word in re.findall(r"\w+", use)}


def first_sentence(doc):
    """The first sentence of a doc comment, without the bold of a headline."""
    text = " ".join(re.sub(r"^ *///", "", line).strip() for line in doc.strip("\n").split("\n"))
    text = re.sub(r"^\*\*[^*]*\*\* *", "", text)
    found = re.match(r"(.*?[.:])(?: |$)", re.sub(r"\[(`[^`]*`)\]", r"\1", text))
    return found[1].rstrip(":").rstrip(".") if found else text.strip()


def clauses_of(text, start):
    """The clauses of the function whose signature begins there: what stands before its body, or before the end of its declaration."""
    lines = []
    for line in text[start:].split("\n")[1:]:
        if re.match(r"^ {0,4}(\{|\}|///)", line) or re.match(r"^ *(?:pub )?fn ", line):
            break
        lines.append(line)
    return "\n".join(lines)


def owner_of(text, start):
    """The type or the trait of which the function there is a method, where it is indented, and None of an impl of a trait."""
    before = [found for found in OWNER.finditer(text) if found.start() < start]
    last_impl = max((found.start() for found in re.finditer(r"^(?:impl|pub trait|trait)\b", text, re.MULTILINE) if found.start() < start), default=-1)
    if not before or before[-1].start() != last_impl:
        return None
    return before[-1][1] or before[-1][2]


def words_in(clauses, known, crate):
    """The definitions that the clauses cite, by their files, as text."""
    files = collections.OrderedDict()
    for word in re.findall(r"[\w'-]+", clauses):
        if word in known and word not in files.setdefault(known[word], []):
            files[known[word]].append(word)
    return "; ".join(
        ", ".join(f"`{word}`" for word in words) + f" ({module if home == crate else f'{home} {module}'})"
        for (home, module), words in files.items()
        if words
    )


def entries(crate, path):
    """The entries of one file."""
    text = path.read_text()
    names = exported(crate)
    known = {
        word.strip().split(" as ")[0]: (home, module)
        for home, module, words in USE.findall(text)
        for word in words.split(",")
        if RELATION.match(word.strip())
    }
    for found in FUNCTION.finditer(text):
        doc, indent, name = found.groups()
        is_public = re.search(rf"^{indent}pub fn {name}\b", text[found.start():found.end()], re.MULTILINE)
        owner = owner_of(text, found.start()) if indent else None
        if indent and owner is None or not is_public and not (indent and re.search(rf"^pub trait {owner}\b", text, re.MULTILINE)):
            continue
        if (owner or name) not in names:
            continue
        words = words_in(clauses_of(text, found.end()), known, crate)
        if words or name.endswith("_law"):
            called = f"{owner}::{name}" if owner else name
            is_law = name.endswith("_law")
            yield f"`{called}`", (f"{first_sentence(doc)}." if is_law else "") + (f" {words}." if words and is_law else words)


def page():
    text = [HEAD]
    for crate in crates():
        found = [entry for path in sorted((TOP / "crates" / crate / "src").rglob("*.rt")) for entry in entries(crate, path)]
        if found:
            text.append(f"## {crate}")
            for words, same in itertools.groupby(found, lambda entry: entry[1]):
                entry = f"{', '.join(called for called, _ in same)}: {words}"
                text.append(textwrap.fill(entry, 120, initial_indent="- ", subsequent_indent="  ", break_long_words=False, break_on_hyphens=False))
    return "\n".join(text) + "\n"


def contracts(file=None):
    """Lists the contracts of all crates: their laws, and the functions whose clauses cite relations of specs/.

    The list is Markdown, made from the sources; it goes to standard output, or into FILE.
    """
    if file is None:
        print(page(), end="")
    else:
        pathlib.Path(file).write_text(page())
