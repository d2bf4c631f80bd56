"""Lists words that have several meanings, and words that are not of the field."""

import collections
import re

from oai.programs import TOP

HEAD = re.compile(r"^(?:(?:abbrev|unfoldable)\s+)?pub\s+(?:(record|data|ruleset)\s+)?([^\s:({]+)(.*)$")
CONSTRUCTOR = re.compile(r"^  ([^\s:({-][^\s:({]*)\s*:")
TYPE = re.compile(r"^ *pub(?:\(crate\))? (?:struct|enum|trait) (\w+)", re.MULTILINE)
# An impl of Model, up to the value that contracts see; and an import in it: the crate, the file of specs/, and the words.
MODEL = re.compile(r"^impl(?:<[^>]*>)? Model for (\w+)[^{]*\{(.*?)ghost Value = \{ (\w+)[^}]*\};", re.MULTILINE | re.DOTALL)
IMPORT = re.compile(r"ghost use Rattle\.(\w+)\.specs\.(\w+)\.\{([^}]*)\};")
# Words that keep several meanings, each with the reason.
EXCEPTIONS = {
    "◌>>=◌": "the bind of a monad, under its usual sign: of Option, and in oai_xml of Result",
    "element": "a production of XML's grammar: in oai_answers its bytes, in oai_xml the node of a tree",
    "start_tag": "a production of XML's grammar: in oai_answers without attributes, in oai_xml with those of a tree",
    "end_tag": "a production of XML's grammar: the same bytes, in oai_answers by the literals of its code",
    "elements_of": "in oai_json those of an array, in oai_xml those that are kept under a name",
    "content_in": "in oai_xml a production of XML's grammar, in oai_item the fields of a record without those about it",
    "element_in": "in oai_xml a production of XML's grammar, in oai_item the element that fields keep",
    "root_in": "the root of an XML document: in oai_xml its production, in oai_item its name",
    "AreRecords": "the records of an item: in Givens in memory, in Walks in encoded bytes",
    "spelled_attribute": "a production of XML's grammar: in oai_answers of an escaped value, in oai_xml of an attribute of a tree",
}
# What is not a word of the field, and what is. Words of the specification stay: Exchange, Call, Answer, Ask, Reply, front, piece, moment and the like.
PHRASES = {
    "keeps? what (?:it|was|is|they|he) (?:has |have )?acknowledged": "acknowledged writes are durable",
    "(?:answers?|responses?) (?:leaves?|left) before": "a response is sent only after",
    "(?:what was |be |is |are |was |were )?performed again": "replayed",
    "performs? [a-z ]{0,30}again": "replays",
    "performing [a-z ]{0,30}again": "replaying",
    "(?:at|of|behind|before|after) a start(?! tag)": "at startup, crash recovery",
    "any end is an ordinary one": "crash-only",
    "(?:closed|open|changed|first|last) gates?|behind (?:a|the) gate": "commit byte",
    "gates and groups|gates": "commit bytes, commit groups",
    "something else than a crash": "corruption",
    "names? [a-z ]{0,20}once (?:more|less)": "increments, drops its reference count",
    "named once (?:more|less)": "its reference count is raised, lowered",
    "lets? [a-z ]{0,20}go|is let go|are let go|let go": "drops, releases",
    "(?:is|are) exchanged for": "is swapped in for",
    "pages? of entries": "leaf page",
    "what is known of (?:its |the |their |some |many )?items": "per-page statistics, zone maps",
    "leaves? the cache|used longest ago": "is evicted; least recently used",
    "by halves": "binary search",
    "costs? the same for each": "is O(part), independent of its offset",
    "fronts? of (?:the|its|their|his) answers": "a prefix of the responses",
    "(?:is|are|was|were|be) told": "is returned, is reported",
    "told": "returned, reported, written",
    "tells?": "returns, reports",
    "said": "reported, written, stated",
    "asks? nothing": "is refused by its path, method or type",
    "room (?:is|was|for [a-z' ]{1,40} is) taken": "space is reserved",
    "where (?:the )?memory is (?:there|wanting)|want of memory": "out of memory; when memory is available",
    "(?:that|which|who) (?:lies|lied|lie)(?! (?:in|at|on|below|above|between|within|behind|before))|lies once": "a corrupt read, a faulty device",
    "planted bugs?": "mutants",
    "g[eo]ts? through": "survives, survived",
    "refused (?:only )?by (?:a|its) name": "killed only by a dangling name",
    "beside other work": "on a loaded machine",
    "by chance": "in random order",
    "(?:before|behind) the stroke": "left, right of the slash",
    "of one processor": "CPU minutes",
    "puts? out": "writes",
}

# Where a phrase is meant as it stands: the end of a page's path, the phrase, and why.
MEANT = []


def definitions(path):
    """The words that the file defines, each with its text."""
    lines = path.read_text().split("\n")
    for at, line in enumerate(lines):
        found = HEAD.match(line)
        if not found or line.startswith("pub mod") or line.startswith("pub use"):
            continue
        kind, word = found.group(1), found.group(2)
        body = [line]
        for other in lines[at + 1:]:
            if not other.strip() or other.startswith("-- "):
                break
            body.append(other)
        yield word, "\n".join(body)
        if kind == "data":
            for other in body[1:]:
                constructor = CONSTRUCTOR.match(other)
                if constructor:
                    yield constructor.group(1), other.strip()


def types():
    """The names of the types of src/, each with the files that define it."""
    places = collections.defaultdict(set)
    for path in sorted(TOP.glob("crates/*/src/**/*.rt")):
        crate = path.parts[path.parts.index("crates") + 1]
        if not crate.startswith("tests_"):
            for name in TYPE.findall(path.read_text()):
                places[name].add(f"{crate}/{path.name}")
    return places


def models():
    """The files of specs/ that define what contracts see of a type, under the type's own name; each with that name."""
    for path in sorted(TOP.glob("crates/*/src/**/*.rt")):
        for name, inside, value in MODEL.findall(path.read_text()):
            for crate, file, words in IMPORT.findall(inside):
                if any(value == word.split(" as ")[-1].strip() and name == word.split(" as ")[0].strip() for word in words.split(",")):
                    yield name, f"{crate}/{file}.antt"


def ambiguous_types(words):
    """Types of whose name another crate has a type, or a definition that is not their model and whose own crate has no such type."""
    own = set(models())
    for name, files in sorted(types().items()):
        homes = {file.split("/")[0] for file in files}
        defined = {file for group in words.get(name, {}).values() for file in group if (name, file) not in own}
        others = {file for file in defined if file.split("/")[0] not in homes}
        if len(homes) > 1 or others:
            yield name, sorted(files) + sorted(others)


# Each phrase is a group of its own; it may go on in the next line.
FORMS = "|".join(f"(?P<p{number}>{phrase})" for number, phrase in enumerate(PHRASES))
PATTERN = re.compile(rf"\b(?:{FORMS})\b".replace(" ", r"\s+").replace(r"[a-z\s+]", r"[a-z\s]").replace(r"[a-z'\s+]", r"[a-z'\s]"), re.IGNORECASE)


def phrases_in(text):
    """The phrases in a text, each with its place and what to write."""
    for found in PATTERN.finditer(text):
        yield found.start(), " ".join(found[0].split()), list(PHRASES.values())[int(found.lastgroup[1:])]


def prose(text):
    """A page with its blocks of code and its words in backquotes blanked, each line in its place."""
    text = re.sub(r"^```.*?^```", lambda block: re.sub(r"[^\n]", " ", block[0]), text, flags=re.MULTILINE | re.DOTALL)
    text = re.sub(r"^    .*$", lambda line: " " * len(line[0]), text, flags=re.MULTILINE)
    return quiet(text)


def comments(text):
    """The doc comments of a source, all else blanked, each line in its place."""
    lines = (re.sub(r"^\s*//[/!]", "", line) if re.match(r"\s*//[/!]", line) else "" for line in text.split("\n"))
    return quiet("\n".join(lines))


def quiet(text):
    """A text with its words in backquotes blanked."""
    return re.sub(r"`[^`\n]*`", lambda word: " " * len(word[0]), text)


def check(paths, text_of):
    """Prints each phrase of the files, but those that are meant; how many there are."""
    count = 0
    for path in paths:
        name, text = str(path.relative_to(TOP)), text_of(path.read_text())
        for place, phrase, better in phrases_in(text):
            if not any(name.endswith(page) and phrase.lower() == meant for page, meant, _ in MEANT):
                print(f"{name}:{text.count(chr(10), 0, place) + 1}: '{phrase}': {better}")
                count += 1
    return count


def check_all():
    """How many phrases there are in the pages, and in doc comments."""
    pages = [TOP / "README.md", *sorted(TOP.glob("docs/*.md")), TOP / "scripts/README.md", *sorted(TOP.glob("crates/*/README.md"))]
    return check(pages, prose), check(sorted(TOP.glob("crates/*/src/**/*.rt")), comments)


def words(*crates):
    """Lists words that have several meanings, and words that are not of the field.

    First the words of specs/ that are defined more than once, each with the files that define it. A word is a
    definition of a file of specs/ (abbrev, unfoldable, record, data, or with none of these), or a constructor of a
    `data`. The definitions of one word whose text is the same count as one. Those of EXCEPTIONS come with the reason
    why they stay. Then the types of src/ (struct, enum, trait) of whose name there is another one in src/, or a
    definition in specs/ of another crate that is not the type's own model. Then the phrases of PHRASES in the pages and
    in the doc comments of src/, each with its line and what to write; but those of MEANT. Blocks of code and words in
    backquotes are not looked at. The status is 1 where there is such a word without a reason, such a type or such a
    phrase; with the names of crates after it, only the words that one of them defines count.
    """
    places = collections.defaultdict(dict)
    for path in sorted(TOP.glob("crates/*/specs/*.antt")):
        crate = path.parts[-3]
        for word, text in definitions(path):
            places[word].setdefault(text, []).append(f"{crate}/{path.name}")
    several = {word: texts for word, texts in places.items() if len(texts) > 1}
    refused = 0
    for word, texts in sorted(several.items()):
        names = [name for group in texts.values() for name in group]
        reason = EXCEPTIONS.get(word)
        refused += not reason and (not crates or any(name.split("/")[0] in crates for name in names))
        print(f"{word}: {', '.join(names)}{f' ({reason})' if reason else ''}")
    excepted = sum(word in EXCEPTIONS for word in several)
    print(f"{len(several)} of {len(places)} words have several meanings, {excepted} of them with a reason")
    ambiguous = list(ambiguous_types(places))
    for name, files in ambiguous:
        print(f"type {name}: {', '.join(files)}")
    print(f"{len(ambiguous)} types of src/ have a name with another meaning")
    in_pages, in_comments = check_all()
    print(f"{in_pages} phrases in pages, {in_comments} in doc comments")
    return int(bool(refused or ambiguous or in_pages or in_comments))
