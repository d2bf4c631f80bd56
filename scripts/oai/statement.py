"""Lists the definitions on which the statement of the theorem rests."""

import re
from collections import deque

from oai.programs import TOP
from oai.words import HEAD

# The theorem, and where it stands.
LAW, LAWS = "online_service_law", "oai_service/src/laws.rt"

# A word of a definition: a name, or one behind an alias of a module.
WORD = re.compile(r"[^\s(){}\[\],;:.λ]+(?:\.[^\s(){}\[\],;:.λ]+)?")

USE = re.compile(r"^ *(?:ghost )?(?:pub )?use (Rattle\.[\w.◌]+?)(?:\.\{([^}]*)\}| as (\S+?));?$", re.M)
TRAIT_OF = re.compile(r"⟦<(\w+)(?:<[^⟧]*?>)? as (\w+)>⟧")
BOUND = re.compile(r"\b\w+: (\w+)")


class Module:
    """A file of definitions or of code: what it imports, and the texts that it defines, by their names."""

    def __init__(self, path):
        self.path = path
        text = path.read_text(encoding="utf-8")
        self.texts = dict(definitions(text)) if path.suffix == ".antt" else {}
        self.names, self.aliases = {}, {}
        for module, names, alias in USE.findall(text):
            if alias:
                self.aliases[alias] = module
            for name in filter(None, (it.strip() for it in names.split(","))):
                first, _, other = name.partition(" as ")
                self.names[other or first] = (module, first)

    def meant(self, word):
        """The module and the name that a word of this file stands for; None where it is its own variable."""
        front, _, name = word.partition(".")
        if front in self.aliases and name:
            return self.aliases[front], name
        if front in self.texts:
            return module_of(self.path), front
        return self.names.get(front)


def definitions(text):
    """The names that a file of definitions has at its top, each with its text; a constructor has the text of its type."""
    found = None
    for line in text.split("\n"):
        head = HEAD.match(line) if not line.startswith("pub mod") else None
        if head:
            found = [head[2], [line], head[1]]
        elif found and line and not line.startswith("--"):
            found[1].append(line)
        elif found:
            yield from named(*found)
            found = None
    if found:
        yield from named(*found)


def named(name, lines, kind):
    text = "\n".join(lines)
    yield name, text
    if kind == "data":
        yield from ((it.split(":")[0].strip(), text) for it in lines[1:] if ":" in it)


def module_of(path):
    inside = path.relative_to(TOP / "crates").with_suffix("").parts
    return ".".join(["Rattle", *inside])


def file_of(module):
    """The file of a module of this repository's definitions; None where it is the toolchain's, or a type of the code."""
    path = TOP / "crates" / ("/".join(module.split(".")[1:]) + ".antt")
    return path if path.is_file() else None


def block_at(text, at):
    """The block in braces that begins behind that place."""
    depth, begun = 0, text.index("{", at)
    for end in range(begun, len(text)):
        depth += {"{": 1, "}": -1}.get(text[end], 0)
        if depth == 0:
            return text[begun : end + 1]
    return text[begun:]


def ghosts(kind, trait):
    """What is said of a trait, or of its members at a type: the texts of its ghost members, each with its file."""
    head = rf"^pub trait {trait}\b" if kind is None else rf"^impl\b[^\n]*\b{trait} for {kind}\b"
    for path in sorted(TOP.glob("crates/*/src/**/*.rt")):
        text = path.read_text(encoding="utf-8")
        for found in re.finditer(head, text, re.M):
            for member in re.finditer(r"^ *ghost (?!use)[^;]*;", block_at(text, found.end()), re.M):
                yield path, member[0]


def with_supertraits(trait):
    """A trait and its supertraits, whose members a quote of it has too."""
    heads = [re.search(rf"^pub trait {trait}: ([\w +]+) {{", it.read_text(encoding="utf-8"), re.M) for it in TOP.glob("crates/*/src/**/*.rt")]
    names = {name for head in heads if head for name in head[1].split(" + ")}
    return {trait}.union(*map(with_supertraits, names))


def clause():
    """The text of the law's contract, with its bounds."""
    path = TOP / "crates" / LAWS
    text = path.read_text(encoding="utf-8")
    found = re.search(rf"^pub fn {LAW}.*?^\{{\}}$", text, re.M | re.S)
    return path, found[0]


def needed():
    """The definitions that the statement names, and those that they name in turn: of each its module, name and text; and the names of the toolchain."""
    path, text = clause()
    left = deque([(path, text)])
    for kind, trait in sorted({(kind, it) for kind, trait in TRAIT_OF.findall(text) for it in with_supertraits(trait)}):
        left.extend(ghosts(kind, trait))
    for trait in sorted(set(BOUND.findall(text.split("ensures")[0]))):
        left.extend(ghosts(None, trait))
    modules, found, kit = {}, {}, set()
    while left:
        path, text = left.popleft()
        module = modules.setdefault(path, Module(path))
        for word in WORD.findall(text):
            meant = module.meant(word)
            if meant is None or meant in found or meant in kit:
                continue
            file = file_of(meant[0])
            if file is None:
                kit.add(meant)
                continue
            body = modules.setdefault(file, Module(file)).texts.get(meant[1])
            if body is not None:
                found[meant] = body
                left.append((file, body))
    return found, kit


def lines_of_all():
    return sum(len(it.read_text(encoding="utf-8").split("\n")) for it in TOP.glob("crates/*/specs/**/*.antt"))


def statement():
    """Lists the definitions that the statement of the theorem rests on, file by file: who believes them believes what it says.

    It begins with the contract of `online_service_law`, the traits that it names, and what their members are at the types that
    it names, and follows each name to its definition. What is of the toolchain, or a type of the code, is counted by its
    crate. The last line is `D definitions of L lines, in F files of C crates; all definitions have A lines`.
    """
    found, kit = needed()
    files = {}
    for (module, name), text in found.items():
        files.setdefault(file_of(module), {})[text] = name
    lines = 0
    for path, texts in sorted(files.items()):
        count = sum(it.count("\n") + 1 for it in texts)
        lines += count
        print(f"{path.relative_to(TOP)}: {count} lines: {' '.join(sorted(texts.values()))}")
    outside = {}
    for module, _ in kit:
        outside[module.split(".")[1]] = outside.get(module.split(".")[1], 0) + 1
    print("types of the code, and words of the toolchain: " + ", ".join(f"{name} {count}" for name, count in sorted(outside.items())))
    crates = {it.parts[it.parts.index("crates") + 1] for it in files}
    print(f"{sum(map(len, files.values()))} definitions of {lines} lines, in {len(files)} files of {len(crates)} crates; all definitions have {lines_of_all()} lines")
    return 0
