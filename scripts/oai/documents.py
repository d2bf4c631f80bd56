"""Asks xmllint whether documents are well-formed, and whether they are valid by a schema of OAI-PMH."""

import collections
import glob
import json
import re
import subprocess
import tempfile
import xml.etree.ElementTree as ElementTree

from oai import interop
from oai.author import START, Author, asked_script
from oai.clients import get, post
from oai.items import PROVENANCE, RIGHTS, body_of, configuration, deposit
from oai.programs import TOP, needs, oaihost, oaihostd
from oai.servers import PATIENCE, Server, write_configuration

SCHEMA = "scripts/valid/OAI-PMH.xsd"
OAI = "{http://www.openarchives.org/OAI/2.0/}"
DOCUMENT = re.compile(rb"<\?xml .*?</OAI-PMH>\n", re.DOTALL)

# How many documents xmllint is given at once.
BATCH = 500

# Texts of the specification that the schema refuses, each with what shows it, in the order in which a text is looked at.
CLASSES = {
    "a year 0000": re.compile(r"0000-"),
    "a bare %": re.compile(r"%(?![0-9A-Fa-f]{2})"),
    "a bracket": re.compile(r"[\[\]]"),
    "no URI reference": re.compile(""),
}

# The identifiers of items of the last two classes, and what is asked for each class: as they stand in a target.
ODD_IDENTIFIERS = ["oai:archive:100%", "oai:archive:%zz", "oai:archive:a[1]"]
ODD_QUERIES = [
    "verb=ListIdentifiers&metadataPrefix=oai_dc&from=0000-02-29",
    "verb=ListRecords&metadataPrefix=oai_dc&until=0000-12-31T23:59:59Z",
    "verb=GetRecord&metadataPrefix=oai_dc&identifier=oai:archive:100%25",
    "verb=ListMetadataFormats&identifier=oai:archive:a[1]",
    "verb=ListRecords&metadataPrefix=oai_dc",
    "verb=GetRecord&metadataPrefix=oai_dc&identifier=no+scheme%0A%22:%20%ff",
    "verb=ListMetadataFormats&identifier=:",
]

# Texts of the documents of the example, each with one in its place by which the document is invalid.
EXAMPLE = "examples/first-steps.expected"
SPOILED = [
    ("<responseDate>2024-01-01T00:00:00Z</responseDate>", ""),
    ("<responseDate>2024-01-01T00:00:00Z", "<responseDate>2024-01-01"),
    (' verb="Identify"', ' verb="identify"'),
    ("<baseURL>http://host.example/oai/a</baseURL>", ""),
    ("<protocolVersion>2.0", "<protocolVersion>1.1"),
    ("<adminEmail>a@host.example", "<adminEmail>a"),
    ("<deletedRecord>persistent", "<deletedRecord>yes"),
    ("<granularity>YYYY-MM-DDThh:mm:ssZ", "<granularity>seconds"),
    ("<metadataPrefix>jnl", "<metadataPrefix>j n"),
    ("<setSpec>letters", "<setSpec>letters:"),
    ("<identifier>oai:a:1</identifier>", ""),
    ("<identifier>oai:a:1", "<identifier>oai:a:%"),
    ("<datestamp>2024-01-01T00:01:00Z", "<datestamp>2024-02-30T00:01:00Z"),
    ('status="deleted"', 'status="gone"'),
    ('<dc:title>A &amp; B &lt; "C" é</dc:title>', "<dc:headline/>"),
    ("<volume>7</volume>", "<issue>7</issue>"),
    ('code="idDoesNotExist"', 'code="notFound"'),
    ("</error></OAI-PMH>", "</error><ListSets/></OAI-PMH>"),
    ('expirationDate="2024-01-01T00:05:00Z"', 'expirationDate="2024-01-01"'),
    ('completeListSize="3"', 'completeListSize="0"'),
    ('cursor="0"', 'cursor="-1"'),
]


def refused(paths):
    """The documents among these that the schema refuses, each with what xmllint says of it."""
    told = {}
    for first in range(0, len(paths), BATCH):
        batch = paths[first : first + BATCH]
        ran = subprocess.run(["xmllint", "--nonet", "--noout", "--schema", SCHEMA, *batch], stderr=subprocess.PIPE, text=True, check=False)
        valid = set(re.findall(r"^(.*) validates$", ran.stderr, re.MULTILINE))
        told |= {it: "\n".join(re.findall(rf"^{re.escape(it)}:.*$", ran.stderr, re.MULTILINE)) for it in batch if it not in valid}
    return told


def suspects(document):
    """The texts of a document that may be of a class: whose they are, as an attribute or as the text of an element, and the text."""
    request = document.find(f"{OAI}request")
    for name in ("from", "until", "identifier"):
        if name in request.attrib:
            yield request, name, request.get(name)
    for element in document.iter(f"{OAI}identifier"):
        yield element, None, element.text or ""


def mended(path):
    """Replaces, in a document, the texts that are of a class: the classes, and the file of what comes of it."""
    document = ElementTree.parse(path)
    classes = set()
    for element, name, text in suspects(document.getroot()):
        is_date = name in ("from", "until")
        kinds = [it for it in CLASSES if CLASSES[it].search(text) and is_date == (it == "a year 0000") and (name or it != "no URI reference")]
        if not kinds or not is_refused_alone(text, is_date):
            continue
        classes.add(kinds[0])
        if name:
            element.set(name, "2024-01-01" if is_date else "oai:mended")
        else:
            element.text = "oai:mended"
    document.write(f"{path}.mended", encoding="utf-8")
    return classes, f"{path}.mended"


def is_refused_alone(text, is_date):
    """Whether a schema refuses this text as a date, or as a URI: by a document that has it alone."""
    document = ElementTree.fromstring(
        '<OAI-PMH xmlns="http://www.openarchives.org/OAI/2.0/"><responseDate>2024-01-01T00:00:00Z</responseDate><request>http://host.example/</request>'
        '<error code="badVerb">none</error></OAI-PMH>'
    )
    document.find(f"{OAI}request").set("from" if is_date else "identifier", text)
    with tempfile.NamedTemporaryFile(suffix=".xml") as it:
        ElementTree.ElementTree(document).write(it.name, encoding="utf-8")
        return bool(refused([it.name]))


class Count:
    """How many documents there were, of which kind, and in which classes those are that were refused."""

    def __init__(self):
        self.documents, self.classes, self.outside = collections.Counter(), collections.Counter(), 0

    def add(self, what, paths):
        self.documents[what] += len(paths)
        told = refused(paths)
        found = {it: mended(it) for it in told}
        still = refused([path for _, path in found.values()]) if found else {}
        for path, (classes, other) in found.items():
            if classes and other not in still:
                self.classes.update(classes)
                continue
            self.outside += 1
            print(f"REFUSED: {what}: {told[path]}\n{still.get(other, '')}", flush=True)


class KeptHarvest(interop.Harvest):
    """The harvests of `interop`, whose documents are looked at by their schema as well."""

    def __init__(self, server, folder, count):
        super().__init__(server, folder)
        self.schema_count = count

    def check_documents(self):
        paths = sorted(glob.glob(f"{self.folder}/*/*.xml"))
        self.schema_count.add("interop", paths)
        return len(paths)


def check_schema():
    """That the schema refuses the documents of the example where one text is spoiled, and none as they are: how often it does not."""
    with open(EXAMPLE, "rb") as it:
        documents = [document.decode() for document in DOCUMENT.findall(it.read())]
    wrong = 0
    with tempfile.TemporaryDirectory(prefix="valid-") as folder:
        for number, (old, new) in enumerate([("", "")] * len(documents) + SPOILED):
            document = documents[number] if not old else next(it for it in documents if old in it)
            with open(f"{folder}/{number}.xml", "w", encoding="utf-8", newline="") as it:
                it.write(document.replace(old, new, 1))
            if bool(refused([it.name])) != bool(old):
                wrong += 1
                print(f"THE SCHEMA {'takes' if old else 'refuses'}: {new or document}", flush=True)
    print(f"schema: {len(documents)} documents and {len(SPOILED)} that are spoiled, {wrong} taken for the other", flush=True)
    return wrong


def check_asked(count, what, settings, text):
    """The documents that `ask` answers to these lines."""
    with tempfile.TemporaryDirectory(prefix="valid-") as folder:
        path = f"{folder}/config.json"
        write_configuration(path, {"cache": 64} | settings)
        ran = subprocess.run([oaihost(), "ask", path], input=text.encode(), capture_output=True, timeout=PATIENCE, check=False)
        paths = []
        for number, document in enumerate(DOCUMENT.findall(ran.stdout)):
            paths.append(f"{folder}/{number}.xml")
            with open(paths[-1], "wb") as it:
                it.write(document)
        count.add(what, paths)


def check_fuzz(count, scripts, lines, seed):
    for number in range(seed, seed + scripts):
        author = Author(number)
        _, asked = asked_script(author, lines)
        check_asked(count, "fuzz", author.configuration, asked.input(len(asked.lines)))


def check_odd(count):
    """A script that asks for each of the classes."""
    lines = [deposit(it, [], {"oai_dc": [["title", "T"]]}) for it in ODD_IDENTIFIERS]
    asked = [f"{START} POST /deposit/archive {body_of([it]).decode().strip()}" for it in lines]
    asked += [f"{START} GET /oai/archive?{it}" for it in ODD_QUERIES]
    check_asked(count, "the four classes", configuration(100, 60, 1, 10), "".join(it + "\n" for it in asked))


# Records of the formats whose schemas are here: written in several ways, with languages; each with what a strict reader refuses.
LOCATION = 'xmlns:i="http://www.w3.org/2001/XMLSchema-instance" i:schemaLocation="http://host.example/jnl/ http://host.example/jnl.xsd"'
ELEMENTS = [
    ("oai_dc", '<dc xmlns="http://www.openarchives.org/OAI/2.0/oai_dc/"><d:title xmlns:d="http://purl.org/dc/elements/1.1/" xml:lang="pt-BR">A &amp; B</d:title></dc>'),
    ("oai_dc", '<o:dc xmlns:o="http://www.openarchives.org/OAI/2.0/oai_dc/" xmlns="http://purl.org/dc/elements/1.1/"><date>1878</date><!-- c --><title/></o:dc>'),
    ("jnl", f'<j:article xmlns:j="http://host.example/jnl/" {LOCATION}><j:volume>7</j:volume><j:pages><![CDATA[1-2]]></j:pages></j:article>'),
    ("jnl", '<?xml version="1.0"?><article xmlns="http://host.example/jnl/"><pages>&lt;3&gt;</pages></article>'),
]
# What is about each of them, written in several ways and as in an example, and what describes the repository and a set.
EXAMPLES = [text for line in (TOP / "examples/about.jsonl").read_text().splitlines() for text in json.loads(line)["about"]["oai_dc"]]
DEFINED = '<!-- c --><r:rights xmlns:r="http://www.openarchives.org/OAI/2.0/rights/"><r:rightsDefinition><b xmlns=""/></r:rightsDefinition></r:rights>'
ABOUT = [*EXAMPLES, RIGHTS, PROVENANCE, DEFINED]
DESCRIBED = TOP / "examples/described.json"
INVALID = [
    ("oai_dc", '<dc xmlns="http://www.openarchives.org/OAI/2.0/oai_dc/"><title>in no namespace of Dublin Core</title></dc>'),
    ("jnl", '<article xmlns="http://host.example/jnl/"><volume n="1">7</volume></article>'),
]


# The same of what is about a record: it is of the protocol's namespace, of one that has no schema here, or not of its schema.
INVALID_ABOUT = ['<record xmlns="http://www.openarchives.org/OAI/2.0/"/>', "<note/>", PROVENANCE.replace("2002-01-01", "2002")]


def documents_of(elements, folder, about=ABOUT):
    """The files of the documents, in a folder, that a server of `oaihostd` answers for these records, about each of which are these elements."""
    lines = [{"set": "letters", "name": "Letters"}]
    lines += [deposit(f"oai:archive:{number}", [], {"oai_dc": []} | {prefix: text}) | {"about": {prefix: about}} for number, (prefix, text) in enumerate(elements)]
    queries = [f"verb=GetRecord&metadataPrefix={prefix}&identifier=oai:archive:{number}" for number, (prefix, _) in enumerate(elements)]
    queries += [f"verb=ListRecords&metadataPrefix={prefix}" for prefix in ("oai_dc", "jnl")] + ["verb=Identify", "verb=ListSets"]
    paths, made = [], configuration(100, 60, 10, 100)
    described = json.loads(DESCRIBED.read_text())["repositories"][0]
    made["repositories"][0] |= {it: described[it] for it in ("description", "sets")}
    with Server(made, durable=True) as server:
        said = post(server.connect(), lines)
        if any(not it.startswith("ok ") for it in said):
            raise SystemExit(f"a deposit of elements was answered {said}")
        for number, query in enumerate(queries):
            paths.append(f"{folder}/{number}.xml")
            with open(paths[-1], "wb") as it:
                it.write(get(server.connect(), query)[1])
    return paths


def check_elements(count):
    """Records that are elements, with elements about them, where their schemas are here, and what describes the repository and its set; and that what no
    schema has is refused: how often it is not."""
    with tempfile.TemporaryDirectory(prefix="valid-") as folder:
        count.add("elements", documents_of(ELEMENTS, folder))
        taken = len(INVALID) - len(refused(documents_of(INVALID, folder)[: len(INVALID)]))
        for it in INVALID_ABOUT:
            taken += not refused(documents_of(ELEMENTS[:1], folder, [it])[:1])
        return taken


def valid(scripts: int = 100, lines: int = 200, seed: int = 57):
    """Shows that documents are valid by a schema of OAI-PMH.

    That is scripts/valid/OAI-PMH.xsd, which is written from the text of the protocol. The documents are
      all that the harvests of `interop` are answered;
      all that `ask` answers to SCRIPTS scripts of `fuzz`, of the seed SEED and the ones after it, of LINES lines each;
      those of `oaihostd` for records that are elements of oai_dc and of the format of `interop`, with rights and provenance about them, and those of
      the descriptions of the repository and of a set;
      those of a script that asks for each of four classes, which the specification of this repository allows and the schema refuses:
        a year 0000          a `from` or `until` of the year 0000, which XML Schema lacks, is repeated in `request`
        a bare %             an identifier has a `%` without two hexadecimal digits
        a bracket            an identifier has a `[` or `]`
        no URI reference     an `identifier` of a request that no URI reference is, for any other cause, is repeated in `request`
    A document that is refused counts in a class where it is valid once the texts of that class are replaced; it is
    named where it is in none. The last line is `N documents, M refused outside the four classes`; the status is 0 where
    M is 0. It needs what `interop` needs; OAIHOSTD and ITEMS are as there.
    """
    interop.check_needs()
    oaihostd()
    count = Count()
    differences = check_schema() + check_elements(count)
    check_odd(count)
    check_fuzz(count, scripts, lines, seed)
    differences += interop.harvest_all(lambda *place: KeptHarvest(*place, count)).differences
    print("documents: " + ", ".join(f"{name}: {number}" for name, number in count.documents.items()))
    print("refused by the schema: " + ", ".join(f"{name}: {count.classes[name]}" for name in CLASSES))
    if differences:
        print(f"{differences} differences in the harvests of interop, or documents that the schema takes for the other")
    print(f"{sum(count.documents.values())} documents, {count.outside} refused outside the four classes")
    return int(count.outside > 0 or differences > 0)


# ---- well-formed documents

WRITTEN = ["crates/tests_repositories/src/documents/expected.rt", EXAMPLE]


def split_documents(path):
    """The documents of a file, each from its XML declaration to the end tag of its root; and whether the last one ends. In the source of a test `→` stands
    for a tab."""
    with open(path, encoding="utf-8", newline="") as it:
        text = it.read()
    documents = [it.split("</OAI-PMH>\n")[0] + "</OAI-PMH>\n" for it in re.split(r"(?=<\?xml )", text)[1:] if "</OAI-PMH>\n" in it]
    tabs = [it.replace("→", "\t") if path.endswith(".rt") else it for it in documents]
    return tabs, len(documents) == len(re.findall(r"<\?xml ", text))


def is_well_formed(folder, document):
    """Whether xmllint takes the document."""
    path = f"{folder}/document.xml"
    with open(path, "w", encoding="utf-8", newline="") as it:
        it.write(document)
    return subprocess.run(["xmllint", "--noout", path], check=False).returncode == 0


def well_formed(*files):
    """Shows, by a parser that is not this repository's own, that documents are well-formed XML.

    They are those that the tests want (crates/tests_repositories/src/documents/expected.rt), and those of an example
    (examples/first-steps.expected). A document begins with its XML declaration and ends with the end tag of its root.
    The parser is xmllint, of the Debian package libxml2-utils (apt-get install libxml2-utils). It also tells of a
    namespace that is no URI, as a test has one; that is no fault of form.
    """
    needs("xmllint")
    bad = False
    with tempfile.TemporaryDirectory() as folder:
        for path in files or WRITTEN:
            documents, ends = split_documents(path)
            wrong = [number for number, it in enumerate(documents, 1) if not is_well_formed(folder, it)]
            told = [f"document {it} is not well-formed" for it in wrong] + ["its last document does not end"] * (not ends) + ["no document"] * (not documents)
            for it in told:
                print(f"{path}: {it}")
            bad = bad or bool(told)
            print(f"{path}: {len(documents)} documents")
    return int(bad)
