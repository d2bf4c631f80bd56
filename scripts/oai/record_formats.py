"""Records that are elements of seven formats, of Dublin Core and of one of this repository's own, and elements about them: through a server of `oaihostd`, and
out of it again."""

import json
import pathlib
import re
import subprocess
import tempfile
import time
from xml.dom import minidom
from xml.etree import ElementTree

from oai.clients import exchange, post
from oai.element_texts import read_element
from oai.items import NAME, PROVENANCE, RIGHTS, configuration, deposit
from oai.journal import Journal, set_version
from oai.programs import TOP, needs, oaihostd
from oai.servers import serve_durably, write_configuration
from oai.trials import Trial

OAI = "{http://www.openarchives.org/OAI/2.0/}"
METADATA = re.compile("<metadata>(.*?)</metadata>((?:<about>.*?</about>)*)</record>", re.DOTALL)
DATESTAMP = re.compile("<datestamp>([^<]*)</datestamp>")

# A configuration with what describes a repository and a set.
DESCRIBED = TOP / "examples/described.json"
# Lines with something about a record.
EXAMPLES = TOP / "examples/about.jsonl"
SET = {"set": "letters", "name": "Letters & Notes"}

# The formats without fields: the prefix, which names a file of scripts/records, the namespace, the root and the schema.
FORMATS = [
    ("marc21", "http://www.loc.gov/MARC21/slim", "record", "http://www.loc.gov/standards/marcxml/schema/MARC21slim.xsd"),
    ("datacite", "http://datacite.org/schema/kernel-4", "resource", "http://schema.datacite.org/meta/kernel-4.4/metadata.xsd"),
    ("mods", "http://www.loc.gov/mods/v3", "mods", "http://www.loc.gov/standards/mods/v3/mods-3-7.xsd"),
    ("edm", "http://www.w3.org/1999/02/22-rdf-syntax-ns#", "RDF", "http://www.europeana.eu/schemas/edm/EDM.xsd"),
    ("mets", "http://www.loc.gov/METS/", "mets", "http://www.loc.gov/standards/mets/mets.xsd"),
    ("jats", "https://jats.nlm.nih.gov/ns/archiving/1.3/", "article", "https://jats.nlm.nih.gov/archiving/1.3/JATS-archivearticle1.xsd"),
    ("tei", "http://www.tei-c.org/ns/1.0", "TEI", "http://www.tei-c.org/release/xml/tei/custom/schema/xsd/tei_all.xsd"),
]

# The fields of scripts/records/marc21.xml, typed from it.
MARC = [
    "01142cam a2200301 a 4500",
    ["001", "   92005291 "],
    ["008", "920219s1993    caua   j      000 0 eng  "],
    ["020", " ", " ", "a", "0152038655 :", "c", "$15.95"],
    ["100", "1", " ", "a", "Sandburg, Carl,", "d", "1878-1967."],
    ["245", "1", "0", "a", "Arithmetic /", "c", "Carl Sandburg ; illustrated as “an anamorphic adventure” by Ted Rand."],
    ["650", " ", "0", "a", "Łódź & العربية <日本語>"],
]

PLAIN = {"oai_dc": [["title", "A letter"]]}

# Texts that are refused, and how. The byte is counted by hand.
START = '<record xmlns="http://www.loc.gov/MARC21/slim">'
MANY = "".join(f" a{number}=''" for number in range(10, 74))
REFUSED = {
    "": "20 bad-xml 0",
    "no element": "20 bad-xml 0",
    "\ufeff<a/>": "20 bad-xml 0",
    "<!DOCTYPE record><record/>": "20 bad-xml 2",
    "<?xml version='1.0' encoding='latin1'?><record/>": "20 bad-xml 30",
    START: "20 bad-xml 47",
    f"{START}</record><record/>": "20 bad-xml 56",
    f"{START}<leader></record>": "20 bad-xml 57",
    f"{START}é&nbsp;</record>": "20 bad-xml 50",
    f"{START}&#1;</record>": "20 bad-xml 50",
    f"{START}\x01</record>": "20 bad-xml 47",
    f"{START}]]></record>": "20 bad-xml 49",
    f"{START}<a b='<'/></record>": "20 bad-xml 53",
    f"{START}<1/></record>": "20 bad-xml 48",
    f"{START}<p:a/></record>": "20 bad-xml 51",
    f"{START}<a b='' b=''/></record>": "20 bad-xml 59",
    f"{START}{'<a>' * 128}": "20 bad-xml 429",
    f"<record{MANY} xmlns='u'/>": "20 bad-xml 465",
    "<record/>": "21 not-of-format",
    '<leader xmlns="http://www.loc.gov/MARC21/slim"/>': "21 not-of-format",
    '<collection xmlns="http://www.loc.gov/MARC21/slim"><record/></collection>': "21 not-of-format",
    '<mods xmlns="http://www.loc.gov/mods/v3"/>': "21 not-of-format",
}


# Lines with something about records that are refused, each with the words: in place of a text there may be none, and of what is no text an element.
GIVEN = {"oai_dc": [["title", "x"]], "jnl": '<article xmlns="http://host.example/jnl/"/>'}
REFUSED_ABOUT = [
    (GIVEN, {"marc21": []}, "2 bad-command"),
    (GIVEN, {"oai_dc": RIGHTS}, "2 bad-command"),
    (GIVEN, {"oai_dc": [[RIGHTS]]}, "2 bad-command"),
    (GIVEN, None, "2 bad-command"),
    (GIVEN, {"jnl": [RIGHTS, "<a>"]}, "20 bad-xml 3"),
    (GIVEN, {"oai_dc": [""], "jnl": [RIGHTS, "<a>"]}, "20 bad-xml 3"),
    (GIVEN | {"jnl": "<"}, {"oai_dc": [""], "jnl": ["<a>"]}, "20 bad-xml 1"),
    (GIVEN | {"oai_dc": "<b>"}, {"oai_dc": [""], "jnl": [RIGHTS]}, "20 bad-xml 3"),
    (GIVEN | {"jnl": []}, {"jnl": [RIGHTS]}, "21 not-of-format"),
    (GIVEN, {"jnl": [f"<a>{'b' * 1_048_576}</a>"]}, "11 too-large"),
]


def uri(prefix):
    return f"oai:host.example:{prefix}"


def settings():
    """The configuration: the formats without fields, and one with fields; with what describes the repository and a set."""
    made = configuration(chunk=3, lifetime=3600, lists=10, items=100)
    keys = ["prefix", "namespace", "root", "schema"]
    repository, described = made["repositories"][0], json.loads(DESCRIBED.read_text())["repositories"][0]
    repository["formats"] += [dict(zip(keys, it)) for it in FORMATS]
    repository |= {it: described[it] for it in ("description", "sets")}
    return made


def about_of(prefix):
    """What is about the records of an item, of which one is in this format: about that one two elements."""
    return {"oai_dc": [RIGHTS]} | {prefix: [PROVENANCE, RIGHTS]}


def sources():
    """The texts of the records, as they stand in their files, by their prefixes."""
    return {path.stem: path.read_bytes().decode() for path in sorted((TOP / "scripts/records").glob("*.xml"))}


def canonical(text):
    """Canonical XML (version 2.0), by Python's library, without comments; and without instructions, which it keeps."""
    return re.sub(r"<\?.*?\?>", "", ElementTree.canonicalize(text), flags=re.DOTALL)


def tree(element):
    """An element by its expanded name, with its attributes and what stands in it."""
    return element.tag, dict(element.attrib), element.text or "", [(tree(it), it.tail or "") for it in element]


class Archive:
    """A folder of a server, which is started, killed and saved."""

    def __init__(self, folder):
        self.folder, self.config = str(folder / "archive"), folder / "config.json"
        write_configuration(self.config, settings())

    def serve(self):
        return serve_durably(self.config, self.folder, errors=subprocess.DEVNULL)

    def run(self, *arguments):
        """What a command of the program prints."""
        return subprocess.run([oaihostd(), *arguments], capture_output=True, text=True, check=True).stdout

    def dump(self):
        return self.run("dump", self.folder, NAME)


def get(server, prefix, kept_as=None):
    """The document of a record."""
    connection = server.connect()
    _, document = exchange(connection, f"/oai/{NAME}?verb=GetRecord&metadataPrefix={kept_as or prefix}&identifier={uri(prefix)}")
    connection.close()
    return document


def said_to(server, *lines):
    connection = server.connect()
    said = post(connection, list(lines))
    connection.close()
    return [re.sub("^ok .*", "ok", it) for it in said]


def line_of(prefix, given):
    return deposit(uri(prefix), [], PLAIN | {prefix: given})


def compare(trial, what, server):
    """Reads each record: its bytes are those of the model, and it is the same element as its source, by itself and where it stands."""
    for prefix, text in sources().items():
        document, about = get(server, prefix), about_of(prefix)[prefix]
        found = METADATA.search(document)
        trial.check(f"{what}: {prefix}", found and found[1], read_element(text).text)
        trial.check(f"{what}: about {prefix}", found and found[2], "".join(f"<about>{read_element(it).text}</about>" for it in about))
        if not found:
            continue
        trial.check(f"{what}: {prefix}, canonical", canonical(found[1]), canonical(text))
        [record] = ElementTree.fromstring(document.encode()).findall(f"*/{OAI}record")
        there = [tree(record.find(f"{OAI}metadata")[0]), *(tree(it[0]) for it in record.findall(f"{OAI}about"))]
        trial.check(f"{what}: {prefix}, in its document", there, [tree(ElementTree.fromstring(it.encode())) for it in (text, *about)])


def written_tree(text):
    """An element as scripts/harvest.pl writes it: without comments and instructions, and without texts that are white space, which the library leaves out."""
    return tree_of(minidom.parseString(read_element(text).text).documentElement)


def tree_of(node):
    inside = [tree_of(it) if it.nodeType == it.ELEMENT_NODE else it.data for it in node.childNodes if it.nodeType == it.ELEMENT_NODE or it.data.strip()]
    return [f"{{{node.namespaceURI or ''}}}{node.localName}", {name: it for name, it in node.attributes.items() if not name.startswith("xmlns")}, inside]


def read_containers(trial, what, server):
    """What the library HTTP::OAI reads of what is about records, also in lists, and of what describes the repository and its set."""
    with tempfile.TemporaryDirectory() as folder:
        for prefix in ("oai_dc", "marc21"):
            wanted = {uri(it): about_of(it)[prefix] for it in sources() if prefix in about_of(it)}
            found = {it["identifier"]: it.get("about") for it in harvested(server, folder, "ListRecords", metadataPrefix=prefix)}
            trial.check(f"{what}: about records in {prefix}", found, {name: [written_tree(it) for it in texts] for name, texts in wanted.items()})
        made = settings()["repositories"][0]
        [identity], [a_set] = harvested(server, folder, "Identify"), harvested(server, folder, "ListSets")
        trial.check(f"{what}: the description", identity.get("description"), [written_tree(it) for it in made["description"]])
        trial.check(f"{what}: the description of a set", a_set.get("setDescription"), [written_tree(it) for it in made["sets"][SET["set"]]])


def harvested(server, folder, verb, **arguments):
    """What the library HTTP::OAI reads there."""
    command = ["perl", "scripts/harvest.pl", server.base(), folder, verb, *(f"{name}={value}" for name, value in arguments.items())]
    return [json.loads(it) for it in subprocess.run(command, stdout=subprocess.PIPE, check=True).stdout.splitlines()]


def lines_in(dump):
    return [json.loads(it) for it in dump.split("\n") if it]


def compare_dump(trial, what, dump):
    """A dump has each element as a text, which is the one that documents have."""
    lines = {it["deposit"]: (it["records"], it["about"]) for it in lines_in(dump) if "deposit" in it}
    wanted = {uri(prefix): (PLAIN | {prefix: read_element(text).text}, read_about(about_of(prefix))) for prefix, text in sources().items()}
    trial.check(f"{what}: the dump", lines, wanted)


def read_about(about):
    return {prefix: [read_element(it).text for it in texts] for prefix, texts in about.items()}


def read_marc(trial, server):
    """The fields of the MARC record, as libraries of Perl read them."""
    ran = subprocess.run(["perl", "scripts/marc.pl", server.base(), "marc21"], capture_output=True, text=True, check=True)
    trial.check("MARC, by libraries of Perl", [json.loads(it) for it in ran.stdout.splitlines()], [[uri("marc21"), *MARC]])


def refuse(trial, archive, server):
    """Each line that is refused says why, and changes nothing."""
    before = archive.dump()
    for text, words in REFUSED.items():
        trial.check(f"refused: {text[:60]!r}", said_to(server, line_of("marc21", text)), [f"refused {words}"])
    trial.check("a list, without fields", said_to(server, line_of("marc21", [])), ["refused 21 not-of-format"])
    trial.check("a field, without fields", said_to(server, line_of("marc21", [["leader", ""]])), ["refused 9 unknown-field"])
    trial.check("a field without a name", said_to(server, line_of("jnl", [["", "<article/>"]])), ["refused 9 unknown-field"])
    both = line_of("jnl", "<") | {"records": {"oai_dc": "x", "jnl": "<"}}
    trial.check("two texts: the first by its prefix", said_to(server, both), ["refused 20 bad-xml 1"])
    trial.check("a bad text, and an unknown set", said_to(server, line_of("jnl", "<a>") | {"sets": ["none"]}), ["refused 20 bad-xml 3"])
    for records, about, words in REFUSED_ABOUT:
        said = said_to(server, deposit(uri("about"), [], records) | {"about": about})
        trial.check(f"refused: {str(records)[:60]}, about it {str(about)[:60]}", said, [f"refused {words}"])
    trial.check("what was refused", archive.dump(), before)


def exchange_kinds(trial, server):
    """A record is a list, then an element, then a list; what is printed of each can be told apart by its kind alone in a dump."""
    name, element = uri("kinds"), '<article xmlns="http://host.example/jnl/"><pages xml:lang="en">1</pages></article>'
    for given, wanted in [([["pages", "1"]], "<pages>1</pages>"), (element, element), ([], '.xsd"></article>')]:
        said = said_to(server, deposit(name, [], PLAIN | {"jnl": given}))
        trial.check(f"kinds: {given}", (said, wanted in get(server, "kinds", "jnl")), (["ok"], True))
    trial.check("kinds: deleted", said_to(server, {"delete": name}), ["ok"])
    trial.expect("<metadata>" not in get(server, "kinds", "jnl"), "kinds: a deleted item has metadata")


def exchange_about(trial, archive, server):
    """What is about a record changes with it, alone, and goes with it; a put tells whether it is the same."""
    name = uri("about")

    def say(what, line, about, is_new):
        """What is about the record behind the line, and whether its datestamp is another one."""
        before, said = DATESTAMP.findall(get(server, "about", "jnl")), said_to(server, line)
        found, stamps = get(server, "about", "jnl"), DATESTAMP.findall(get(server, "about", "jnl"))
        shown = "".join(f"<about>{read_element(it).text}</about>" for it in about)
        trial.check(f"about: {what}", (said, f"</metadata>{shown}</record>" in found, before != stamps), (["ok"], True, is_new))
        time.sleep(1.1)

    both = {"about": {"jnl": [RIGHTS, "<a/>"], "oai_dc": []}}
    put, listed = {"put": name, "sets": [], "records": GIVEN}, {"records": GIVEN | {"jnl": [["pages", "1"]]}}
    say("two elements", deposit(name, [], GIVEN) | both, [RIGHTS, "<a/>"], True)
    say("a put of the same, written otherwise", put | {"about": {"jnl": [f"<!-- c -->{RIGHTS}", "<a></a>"]}}, [RIGHTS, "<a/>"], False)
    say("a put of them in another order", put | {"about": {"jnl": ["<a/>", RIGHTS]}}, ["<a/>", RIGHTS], True)
    say("a put of one about a list", put | listed | {"about": {"jnl": [RIGHTS]}}, [RIGHTS], True)
    line = next(it for it in lines_in(archive.dump()) if it.get("deposit") == name)
    trial.check("about: the dump", line, deposit(name, [], {}) | listed | {"about": {"jnl": [read_element(RIGHTS).text]}})
    say("a put of none", put | listed, [], True)
    say("an empty list of texts", put | listed | {"about": {"jnl": []}}, [], False)
    say("one again", deposit(name, [], GIVEN) | both, [RIGHTS, "<a/>"], True)
    lines = lines_in(EXAMPLES.read_text())
    trial.check("about: the examples", said_to(server, *lines), ["ok"] * len(lines))
    found = {it["deposit"]: it["about"] for it in lines_in(archive.dump()) if it.get("deposit") in [line["deposit"] for line in lines]}
    trial.check("about: the examples in a dump", found, {line["deposit"]: read_about(line["about"]) for line in lines})
    trial.check("about: deleted", (said_to(server, {"delete": name}), "about>" in get(server, "about", "jnl")), (["ok"], False))
    trial.expect('"about":{"jnl"' not in archive.dump(), "about: a deleted record has something about it in a dump")


def exchange_versions(trial, archive):
    """A journal of version 1 takes lists alone, until a configuration with another format makes it a checkpoint."""
    write_configuration(archive.config, configuration(chunk=3, lifetime=3600, lists=10, items=100))
    lists, element = deposit(uri("version"), [], PLAIN), deposit(uri("version"), [], PLAIN | {"jnl": "<article xmlns='http://host.example/jnl/'/>"})
    with archive.serve() as server:
        trial.check("version 2", said_to(server, lists, element), ["ok", "ok"])
    set_version(f"{archive.folder}/journal", 1)
    with archive.serve() as server:
        # (the journal has a line with an element, which was not there for a program of version 1)
        trial.expect("<metadata>" not in get(server, "version", "jnl"), "version 1: an element was performed")
        about = lists | {"about": {"oai_dc": [RIGHTS]}}
        trial.check("version 1", said_to(server, element, about, lists), ["refused 2 bad-command", "refused 2 bad-command", "ok"])
    write_configuration(archive.config, settings())
    with archive.serve() as server:
        trial.check("version 2 again", said_to(server, element, line_of("tei", sources()["tei"])), ["ok", "ok"])
        trial.check("version 2 again: the record", METADATA.search(get(server, "version", "jnl"))[1], '<article xmlns="http://host.example/jnl/"></article>')
    [_, _, _, body], *_ = Journal(f"{archive.folder}/journal").read_on()
    trial.check("the version", body[:2], "2\n")


def record_formats():
    """Shows that records which are elements go in and come out unaltered: MARCXML, DataCite, MODS, EDM, METS with xlink, JATS with mathematics,
    TEI with xml:lang and xml:space, and Dublin Core with xml:lang; and so do elements about records.

    The texts are those of scripts/records, with comments, CDATA, references, prefixes and line ends as exports have
    them. Each is deposited at a server of `oaihostd`, with elements about it, and read: as it is; after a kill, when
    the journal was replayed; after a checkpoint; and from a second archive into which a dump of the first was loaded.
    Each time the bytes are those of the model (scripts/oai/model.py), and by Python's library Canonical XML (version
    2.0) of the record is that of its source, and so is the tree of its element within the document. A dump has each as
    a text. The MARC fields are read by two libraries of Perl, HTTP::OAI and MARC::File::XML, what is about records and
    what describes the repository and its set by the first one. Texts that are no elements, or not of the format, are
    refused, at their bytes. What is about a record changes with it, also by a put. And a journal of version 1 takes no
    element, until a checkpoint.
    The last line is `N checked, M differ`; the status is 0 where M is 0. Packages of Debian:
        apt-get install libhttp-oai-perl libmarc-xml-perl
    """
    needs("perl", perl=["HTTP::OAI", "MARC::File::XML"])
    trial = Trial()
    with tempfile.TemporaryDirectory(prefix="record-formats-") as place:
        folders = [pathlib.Path(place) / name for name in ("first", "second", "third")]
        for it in folders:
            it.mkdir()
        first, second, third = map(Archive, folders)
        lines = [SET, *(line_of(prefix, text) | {"about": about_of(prefix)} for prefix, text in sources().items())]
        with first.serve() as server:
            trial.check("the deposit", said_to(server, *lines), ["ok"] * len(lines))
            compare(trial, "deposited", server)
            read_containers(trial, "deposited", server)
            read_marc(trial, server)
            refuse(trial, first, server)
        with first.serve() as server:
            compare(trial, "replayed", server)
            read_containers(trial, "replayed", server)
        dump = first.dump()
        compare_dump(trial, "replayed", dump)
        trial.expect(first.run("checkpoint", str(first.config), first.folder).startswith("ok "), "no checkpoint")
        trial.check("checkpoint: the dump", first.dump(), dump)
        with first.serve() as server:
            compare(trial, "after a checkpoint", server)
            read_containers(trial, "after a checkpoint", server)
            exchange_kinds(trial, server)
            exchange_about(trial, first, server)
        with second.serve() as server:
            said = said_to(server, *lines_in(dump))
            trial.check("the dump, deposited", said, ["ok"] * len(lines))
            compare(trial, "loaded", server)
        trial.check("loaded: the dump", second.dump(), dump)
        exchange_versions(trial, third)
    return trial.ended()
