"""Moves an archive with scripts/mirror, disturbs it, and compares source and target."""

import collections
import json
import os
import pty
import random
import re
import signal
import socket
import subprocess
import sys
import tempfile
import time
import typing
import urllib.parse
import urllib.request
from concurrent.futures import ThreadPoolExecutor
from xml.etree import ElementTree
from xml.parsers import expat

from oai.interop import moved, stamp_now
from oai.items import DUBLIN_CORE, JOURNAL, PROVENANCE, RIGHTS, any_fields, configuration, plain_text
from oai.journal import Journal
from oai.model import shown_sets
from oai.programs import needs, oaihostd
from oai.record_formats import OAI, tree
from oai.relay import LATER, REFUSED_TOKEN, Relay, cut_answer, cut_request, drop_answer
from oai.servers import serve_durably, write_configuration

SEED = 27
ITEMS = int(os.environ.get("ITEMS", "5000"))
LIMIT = 100
PREFIXES = ["oai_dc", "jnl"]

# The formats that source and target have beside these where records are elements.
MARC = {
    "prefix": "marc21", "schema": "http://www.loc.gov/standards/marcxml/schema/MARC21slim.xsd", "namespace": "http://www.loc.gov/MARC21/slim", "root": "record",
}  # fmt: skip
DATACITE = {
    "prefix": "datacite", "schema": "http://schema.datacite.org/meta/kernel-4.4/metadata.xsd", "namespace": "http://datacite.org/schema/kernel-4",
    "root": "resource",
}  # fmt: skip

# The namespaces of the four formats.
NAMESPACES = {"oai_dc": f"{OAI[1:-1]}oai_dc/"} | {it["prefix"]: it["namespace"] for it in (JOURNAL, MARC, DATACITE)}

# The namespace of what says where a record was harvested; and what stands about records of the source beside that and rights.
ORIGIN = "{http://www.openarchives.org/OAI/2.0/provenance}"
NOTE = "<note xmlns='' xmlns:t='urn:example:types' type='t:note'>Łódź &amp; others<![CDATA[ <more>]]><?an instruction?></note>"

# What the requests have that are cut.
POST, TOKEN = b"POST ", b"resumptionToken="

INSTRUCTION = re.compile(r"<\?.*?\?>", re.DOTALL)

# The sets, each with its name, as XML. One lies in a set that the source does not list.
SETS = {
    "theses": "Theses &amp; Dissertations",
    "theses:law": "&lt;Law&gt;",
    "theses:law:canon": "Canon &quot;law&quot;",
    "letters": "Lettres, письма, 手紙",
    "a-z.(1)!": "A name that says ']]&gt;' and 😀",
    "unlisted:inner": "Its parent is not there",
}

# What the target names them. A set that the source does not list has its setSpec for a name.
NAMES = {
    "theses": "Theses & Dissertations",
    "theses:law": "<Law>",
    "theses:law:canon": 'Canon "law"',
    "letters": "Lettres, письма, 手紙",
    "a-z.(1)!": "A name that says ']]>' and 😀",
    "unlisted": "unlisted",
    "unlisted:inner": "Its parent is not there",
}

# Identifiers behind `oai:source.example:` that are no URIs.
NO_URIS = ["a b", "é1", "x^2"]


class Source:
    """The other data provider, and its items by their identifiers."""

    def __init__(self, folder):
        self.folder, self.random, self.items = folder, random.Random(SEED), {}
        self.port, self.process, self.templates, self.prefix, self.has_about = free_port(), None, "scripts/mirror-source", "", False
        for number in range(ITEMS):
            front = self.random.choice(["", "x/", "%C3%A9-", "(a);", "A+B="])
            self.set_item(f"{front}{number}", moved(stamp_now(), -self.random.randrange(10, 1_000_000)), deleted=number % 50 == 0)
        for it in NO_URIS:
            self.set_item(it, moved(stamp_now(), -10))
        with open(f"{folder}/sets.json", "w", encoding="utf-8") as it:
            json.dump(SETS, it)

    def set_item(self, identifier, stamp, deleted=False, sets=None):
        """Gives an item a new state."""
        texts = any_fields(self.random, DUBLIN_CORE) + [["description", plain_text(self.random, 100)]]
        sets = self.random.choices(list(SETS), k=self.random.randrange(4)) if sets is None else sets
        item = {"_id": identifier, "datestamp": stamp, "sets": list(dict.fromkeys(sets)), "deleted": int(deleted)}
        item |= {"oai_dc": texts, "jnl": any_fields(self.random, JOURNAL["fields"])}
        self.items[identifier] = item | {"about": self.random.choice([[], [RIGHTS], [PROVENANCE], [NOTE, PROVENANCE, RIGHTS]])}

    def change_about(self, count):
        """Gives so many items something else about them, each once, and nothing else new. Gives their identifiers."""
        changed = self.random.sample(self.live(), count)
        for it in changed:
            self.items[it] |= {"about": [NOTE, *self.items[it]["about"]], "datestamp": stamp_now()}
        self.write()
        return changed

    def live(self):
        return [name for name, it in self.items.items() if not it["deleted"] and name not in NO_URIS]

    def change(self, states, deletions, sets=None):
        """Changes and deletes so many items, each once; a tenth of the changes are new items. Gives their identifiers, changed and deleted."""
        chosen = self.random.sample(self.live(), states - states // 10 + deletions)
        changed = chosen[deletions:] + [f"new-{len(self.items)}-{it}" for it in range(states // 10)]
        for it in changed:
            self.set_item(it, stamp_now(), sets=sets)
        for it in chosen[:deletions]:
            self.items[it] |= {"deleted": 1, "datestamp": stamp_now()}
        self.write()
        return changed, chosen[:deletions]

    def write(self):
        """Puts the items into the file that the provider reads, in the order of their datestamps."""
        with open(f"{self.folder}/items.new", "w", encoding="utf-8") as it:
            for item in sorted(self.items.values(), key=lambda item: item["datestamp"]):
                it.write(json.dumps(item) + "\n")
        os.rename(f"{self.folder}/items.new", f"{self.folder}/items.jsonl")

    def start(self):
        self.write()
        environment = os.environ | {
            "ITEMS": f"{self.folder}/items.jsonl", "SETS": f"{self.folder}/sets.json",
            "LIMIT": str(LIMIT), "TEMPLATES": os.path.abspath(self.templates), "PREFIX": self.prefix, "ABOUT": str(int(self.has_about)),
        }  # fmt: skip
        command = ["starman", "--host", "127.0.0.1", "--port", str(self.port), "--workers", "2", "scripts/mirror-source/app.psgi"]
        with open(f"{self.folder}/log", "ab") as log:
            self.process = subprocess.Popen(command, env=environment, stdout=log, stderr=log, start_new_session=True)
        wait_for(self.port)

    def kill(self):
        os.killpg(self.process.pid, signal.SIGKILL)
        self.process.wait()

    def write_as(self, templates, prefix, has_about=False):
        """From now on records are written by these templates, and the protocol's elements with a prefix, or without one; with what is about records, or not."""
        self.kill()
        self.templates, self.prefix, self.has_about = templates, prefix, has_about
        self.start()


class Target:
    """A server of oaihostd on a folder of its own, and how often each item was deposited and deleted since it was last asked."""

    def __init__(self, folder, formats):
        self.folder, self.port, self.server = folder, 0, None
        os.mkdir(folder)
        made = configuration(1000, 3600, 1000, 4 * ITEMS)
        made["repositories"][0]["formats"] = formats
        write_configuration(f"{folder}/config.json", made)
        self.journal = Journal(f"{folder}/archive/journal")

    def start(self):
        """Starts it, at the port that it had before."""
        self.server = serve_durably(f"{self.folder}/config.json", f"{self.folder}/archive", port=self.port, errors=subprocess.DEVNULL)
        self.port = self.server.port

    def kill(self):
        self.server.kill()

    def performed(self):
        """How often each item was deposited, and deleted, since this was asked last."""
        deposits, deletions = collections.Counter(), collections.Counter()
        for _, kind, _, body in self.journal.read_on() or []:
            for line in body.split("\n") if kind == "deposit" else []:
                command = json.loads(line) if line else {}
                deposits.update([command["deposit"]] if "deposit" in command else [])
                deletions.update([command["delete"]] if "delete" in command else [])
        return deposits, deletions


def free_port():
    with socket.create_server(("127.0.0.1", 0)) as it:
        return it.getsockname()[1]


def wait_for(port, tenths=100):
    """Waits until a server listens there, at most for so many tenths of a second."""
    for _ in range(tenths):
        try:
            socket.create_connection(("127.0.0.1", port), timeout=60).close()
            return
        except OSError:
            time.sleep(0.1)
    raise SystemExit(f"nothing listens on port {port}")


def harvested(base, verb, folder, **arguments):
    """What the library reads there."""
    command = ["perl", "scripts/harvest.pl", base, folder, verb, *(f"{name}={value}" for name, value in arguments.items())]
    ran = subprocess.run(command, stdout=subprocess.PIPE, check=True)
    return [json.loads(it) for it in ran.stdout.splitlines()]


def as_compared(record):
    """A record without its datestamp, which is the target's own, with the sets that say where it is."""
    kept = {name: it for name, it in record.items() if name != "datestamp"}
    return kept | {"sets": sorted(shown_sets(record["sets"]))}


def uri(name):
    return f"oai:source.example:{name}"


class Trial:
    """Runs of the program, and the differences that were found."""

    def __init__(self, folder):
        self.folder, self.differences, self.runs, self.targets = folder, 0, 0, 0
        self.state = f"{folder}/state"
        self.source = Source(folder)
        self.source.start()
        self.target = None
        self.to_source = Relay(lambda: self.source.port)
        self.to_target = Relay(lambda: self.target.port)

    def new_target(self, *formats):
        """An empty target, with these formats beside oai_dc, for a move from the beginning."""
        if self.target:
            self.target.kill()
        if os.path.exists(self.state):
            os.remove(self.state)
        self.targets += 1
        self.target = Target(f"{self.folder}/target-{self.targets}", formats or [JOURNAL])
        self.target.start()

    def differ(self, text):
        self.differences += 1
        print(f"DIFFERENCE: {text}", flush=True)

    def equal(self, what, wanted, found):
        if wanted != found:
            self.differ(f"{what} should be {str(wanted)[:300]}, is {str(found)[:300]}")

    def mirror(self, what, *arguments, status=0):
        """Runs the program with a terminal, and gives what it printed and what the terminal showed."""
        self.runs += 1
        before = self.state_text()
        urls = [f"http://127.0.0.1:{self.to_source.port}/oai", f"http://127.0.0.1:{self.to_target.port}/deposit/archive"]
        began = time.time()
        printed, shown_text, found = on_terminal(["scripts/mirror", *urls, self.state, *arguments])
        print(f"{what}: {time.time() - began:.0f} s, status {found}: {' '.join(printed.split()) or shown_text.splitlines()[-1]}", flush=True)
        self.equal(f"{what}: the status", status, found)
        if status:
            self.equal(f"{what}: the state", before, self.state_text())
        return printed, shown_text

    def state_text(self):
        if not os.path.exists(self.state):
            return None
        with open(self.state, encoding="utf-8") as it:
            return it.read()

    def compare(self, what):
        """Harvests both and compares: each record in each format, and the sets."""
        bases = [f"http://127.0.0.1:{self.source.port}/oai", f"http://127.0.0.1:{self.target.port}/oai/archive"]
        asked = [(base, prefix) for prefix in PREFIXES for base in bases]
        with ThreadPoolExecutor() as pool:
            found = dict(zip(asked, pool.map(self.by_identifier, *zip(*asked))))
        for prefix in PREFIXES:
            theirs, ours = [found[base, prefix] for base in bases]
            for it in NO_URIS:
                theirs.pop(uri(it), None)
            self.equal(f"{what}: the identifiers in {prefix}", sorted(theirs), sorted(ours))
            for name in theirs.keys() & ours.keys():
                self.equal(f"{what}: {name} in {prefix}", theirs[name], ours[name])
            self.compare_written(f"{what}: in {prefix}", prefix, ours)
        with tempfile.TemporaryDirectory() as folder:
            sets = {it["setSpec"]: it["setName"] for it in harvested(bases[1], "ListSets", folder)}
        self.equal(f"{what}: the sets", NAMES, sets)

    def by_identifier(self, base, prefix):
        with tempfile.TemporaryDirectory() as folder:
            records = harvested(base, "ListRecords", folder, metadataPrefix=prefix)
        return {it.get("identifier"): as_compared(it) for it in records if "error" not in it}

    def compare_written(self, what, prefix, ours):
        """Compares the target with the items as they were written, without a harvest of the source."""
        for name, item in self.source.items.items():
            if name in NO_URIS:
                continue
            found = ours.get(uri(name), {})
            self.equal(f"{what}: whether {name} is deleted", bool(item["deleted"]), found.get("status") == "deleted")
            if not item["deleted"]:
                texts = [[field, text] for field, text in item[prefix]]
                self.equal(f"{what}: {name}", texts, [[it[0].split("}")[1], it[1]] for it in found.get("fields", [])])

    def performed(self, what, deposited, deleted):
        """Compares what the target performed with what had to be done: each once."""
        deposits, deletions = self.target.performed()
        for it in NO_URIS:
            deposits.pop(uri(it), None)
        self.equal(f"{what}: what was deposited", collections.Counter(uri(it) for it in deposited), deposits)
        self.equal(f"{what}: what was deleted", collections.Counter(uri(it) for it in deleted), deletions)

    def refusals(self, what, count):
        """The identifiers that are no URIs stand in the file of what was refused, with the reason."""
        with open(f"{self.state}.refused", encoding="utf-8") as it:
            found = sorted(it.read().splitlines())
        self.equal(f"{what}: what was refused", sorted(f"{uri(it)}\t3 bad-identifier" for it in NO_URIS[:count]), found)


def on_terminal(command):
    """Runs a command whose standard error is a terminal: what it printed, what the terminal showed, and the status."""
    ours, theirs = pty.openpty()
    with subprocess.Popen(command, stdout=subprocess.PIPE, stderr=theirs, text=True) as process:
        os.close(theirs)
        seen = b""
        try:
            while more := os.read(ours, 65536):
                seen += more
        except OSError:
            pass
        os.close(ours)
        printed = process.stdout.read()
    return printed, seen.decode(), process.returncode


def items_of(source):
    """All that a whole move must deposit, and delete."""
    names = [it for it in source.items if it not in NO_URIS]
    return names, [it for it in names if source.items[it]["deleted"]]


def whole(trial, what, *cuts, fails=False):
    """A move to an empty target, with what is cut in it; where it fails, a second run goes on."""
    trial.new_target()
    trial.to_target.cuts += cuts
    formats = ["--format", "jnl"]
    printed, seen = trial.mirror(what, *formats, status=int(fails))
    if fails:
        trial.target.start()
        printed, seen = trial.mirror(f"{what}, and then", *formats)
    trial.compare(what)
    trial.performed(what, *items_of(trial.source))
    trial.refusals(what, len(NO_URIS))
    trial.equal(f"{what}: the cuts", [], trial.to_target.cuts)
    trial.equal(f"{what}: the progress", True, f"of {len(trial.source.items)} records" in seen)
    return printed


def later(trial, what, *cuts, fails=False):
    """500 changes and 50 deletions, and a run that takes them over, with what is cut in it; where it fails, a second run goes on."""
    changed, deleted = trial.source.change(500, 50)
    trial.to_source.cuts += cuts
    formats = ["--format", "jnl"]
    if fails:
        trial.mirror(what, *formats, status=1)
        trial.source.start()
        what = f"{what}, and then"
    printed, _ = trial.mirror(what, *formats)
    trial.compare(what)
    trial.performed(what, changed, deleted)
    trial.equal(f"{what}: the cuts", [], trial.to_source.cuts)
    return printed


def check_moves(trial):
    """A whole move, one where nothing changed, one of what has changed, and one of a set."""
    printed = whole(trial, "a whole move")
    names, deleted = items_of(trial.source)
    wanted = f"new {len(names) - len(deleted)}, changed 0, deleted {len(deleted)}, unchanged 0, sets {len(NAMES)}, refused {len(NO_URIS)}\n"
    trial.equal("a whole move: the counts", wanted, printed.splitlines(keepends=True)[0])
    printed, _ = trial.mirror("nothing changed", "--format", "jnl")
    trial.performed("nothing changed", [], [])
    trial.refusals("nothing changed", 0)
    os.remove(trial.state)
    printed, _ = trial.mirror("nothing changed, without a state", "--format", "jnl")
    trial.performed("nothing changed, without a state", [], [])
    trial.equal("nothing changed: the counts", f"unchanged {len(names)}", printed.split(", ")[3])
    printed = later(trial, "500 changes and 50 deletions")
    trial.equal("500 changes and 50 deletions: the counts", "new 50, changed 450, deleted 50", ", ".join(printed.split(", ")[:3]))
    in_set, _ = trial.source.change(20, 0, sets=["letters"])
    others, _ = trial.source.change(20, 0, sets=["theses:law"])
    trial.mirror("a set", "--format", "jnl", "--set", "letters")
    deposits, _ = trial.target.performed()
    trial.equal("a set: what was left out", 0, sum(deposits[uri(it)] for it in set(others) - set(in_set)))
    trial.equal("a set: what was deposited", {uri(it) for it in set(in_set) - set(others)}, set(deposits))


def check_source(trial):
    """The source says 503, refuses a token, and is killed in the middle of a list."""
    whole(trial, "a whole move again")
    later(trial, "the source says 503", (TOKEN, lambda *_: LATER))
    later(trial, "the source refuses a token", (TOKEN, lambda *_: REFUSED_TOKEN))
    later(trial, "the source is killed, and started", (TOKEN, cut_answer(trial.source, True)))
    later(trial, "the source is killed", (TOKEN, cut_answer(trial.source, False)), fails=True)


def check_target(trial):
    """The target is killed in the middle of a deposit. The first message is handed on."""
    for what, cut in {"within a message": cut_request, "before its answer": drop_answer}.items():
        for restart in (True, False):
            whole(
                trial,
                f"the target is killed {what}" + (", and started" if restart else ""),
                (POST, lambda request, relay: relay.answer(request)),
                (POST, lambda request, relay, cut=cut, restart=restart: cut(trial.target, restart)(request, relay)),
                fails=not restart,
            )


class Found(typing.NamedTuple):
    """What a record is, as `elements_at` finds it."""

    sets: list
    tree: tuple
    text: str
    about: list
    stamp: str


def elements_at(base, prefix):
    """Each record there, by its identifier: its sets, the tree and the canonical form of its element, which are None where it is deleted, the same of each
    element about it, and its datestamp."""
    found, query = {}, f"metadataPrefix={prefix}"
    while query:
        with urllib.request.urlopen(f"{base}?verb=ListRecords&{query}", timeout=600) as answer:
            data = answer.read()
        document = ElementTree.fromstring(data)
        records = document.findall(f"*/{OAI}record")
        for record, (text, about) in zip(records, texts_of(data), strict=True):
            sets = sorted(shown_sets([it.text for it in record.iter(f"{OAI}setSpec")]))
            metadata = record.find(f"{OAI}metadata")
            element = (None, None) if metadata is None else (tree(metadata[0]), canonical(text))
            others = [(tree(it[0]), canonical(text)) for it, text in zip(record.findall(f"{OAI}about"), about, strict=True)]
            name, stamp = (record.findtext(f"{OAI}header/{OAI}{it}") for it in ("identifier", "datestamp"))
            found[name] = Found(sets, *element, others, stamp)
        token = document.findtext(f".//{OAI}resumptionToken")
        query = token and "resumptionToken=" + urllib.parse.quote(token)
    return found


def texts_of(data):
    """Of each record of a document the text of its element, byte by byte, or None, and those of the elements about it."""
    found, path, begun = [], [], []
    parser = expat.ParserCreate(namespace_separator="}")

    def start(name, _):
        path.append(name)
        if len(path) == 3 and name == f"{OAI[1:]}record":
            found.append((None, []))
        if len(path) == 5 and path[3] in (f"{OAI[1:]}metadata", f"{OAI[1:]}about"):
            begun[:] = [parser.CurrentByteIndex]

    def end(name):
        path.pop()
        if len(path) == 3 and begun:
            text, (own, about) = data[begun.pop() : parser.CurrentByteIndex], found[-1]
            found[-1] = (text, about) if name == f"{OAI[1:]}metadata" else (own, [*about, text])

    parser.StartElementHandler, parser.EndElementHandler = start, end
    parser.Parse(data, True)
    return found


def canonical(text):
    """The canonical form of an element, in which namespaces are declared where they are used (C14N 2.0, as exclusive canonicalization has it), without
    comments and instructions."""
    return INSTRUCTION.sub("", ElementTree.canonicalize(text.decode()))


def compare_elements(trial, what, harvested=None):
    """Each record of the target is the element of the source, and has the elements about it; where there is a first second in which it may have been
    harvested, it says so behind them."""
    count = 0
    for prefix, namespace in NAMESPACES.items():
        theirs = elements_at(f"http://127.0.0.1:{trial.source.port}/oai", prefix)
        ours = elements_at(f"http://127.0.0.1:{trial.target.port}/oai/archive", prefix)
        for it in NO_URIS:
            theirs.pop(uri(it), None)
        trial.equal(f"{what}: the identifiers in {prefix}", sorted(theirs), sorted(ours))
        for name in theirs.keys() & ours.keys():
            wanted, found = theirs[name], ours[name]
            if harvested and found.tree:
                wanted = wanted._replace(about=with_origin(wanted, name, namespace, found, harvested))
            trial.equal(f"{what}: {name} in {prefix}", wanted._replace(stamp=""), found._replace(stamp=""))
        count += len(ours)
    print(f"    {count} records are compared", flush=True)


def with_origin(wanted, name, namespace, found, harvested):
    """What has to be about a record that tells where it was harvested: what the source has, but for what that tells of it, and then the element that is
    found, if it tells this of the record, around that."""
    others = [it for it in wanted.about if it[0][0] != f"{ORIGIN}provenance"]
    told = [child for element, _ in wanted.about if element[0] == f"{ORIGIN}provenance" for child, _ in element[3]]
    parts = {"baseURL": "http://source.example/oai", "identifier": name, "datestamp": wanted.stamp, "metadataNamespace": namespace}
    inside = [((f"{ORIGIN}{part}", {}, text, []), "") for part, text in parts.items()] + [(it, "") for it in told]
    last, _ = found.about[-1] if found.about else (None, None)
    date = last[3][0][0][1].get("harvestDate", "") if last and last[3] else ""
    origin = (f"{ORIGIN}originDescription", {"altered": "false", "harvestDate": date}, "", inside)
    is_told = last and (last[0], last[3]) == (f"{ORIGIN}provenance", [(origin, "")]) and harvested <= date <= stamp_now()
    return [*others, found.about[-1] if is_told else origin]


def check_elements(trial):
    """Moves of records with attributes and nested elements, to formats without fields, while source and target are killed."""
    trial.source.write_as("scripts/mirror-source/elements", "", has_about=True)
    trial.new_target({name: it for name, it in JOURNAL.items() if name != "fields"}, MARC, DATACITE)
    trial.to_source.cuts += [(MARC["prefix"].encode(), lambda request, relay: relay.answer(request)), (TOKEN, cut_answer(trial.source, True))]
    trial.to_target.cuts += [(POST, lambda request, relay: relay.answer(request)), (POST, cut_request(trial.target, True)), (POST, drop_answer(trial.target, True))]
    printed, _ = trial.mirror("elements", "--elements")
    trial.equal("elements: the cuts", [], trial.to_source.cuts + trial.to_target.cuts)
    names, deleted = items_of(trial.source)
    wanted = f"new {len(names) - len(deleted)}, changed 0, deleted {len(deleted)}, unchanged 0, sets {len(NAMES)}, refused {len(NO_URIS)}\n"
    trial.equal("elements: the counts", wanted, printed.splitlines(keepends=True)[0])
    trial.equal("elements: what was dropped", False, "dropped" in printed)
    compare_elements(trial, "elements")
    trial.performed("elements", *items_of(trial.source))
    os.remove(trial.state)
    trial.mirror("elements again, without a state", "--elements")
    trial.performed("elements again", [], [])
    trial.source.write_as("scripts/mirror-source/elements", "oai", has_about=True)
    changed, deleted = trial.source.change(500, 50)
    trial.to_target.cuts += [(POST, drop_answer(trial.target, False))]
    trial.mirror("elements that have changed, and the target is killed", "--elements", status=1)
    trial.target.start()
    trial.to_source.cuts += [(TOKEN, cut_answer(trial.source, False))]
    trial.mirror("and the source is killed", "--elements", status=1)
    trial.source.start()
    trial.mirror("elements that have changed", "--elements")
    compare_elements(trial, "elements that have changed")
    trial.performed("elements that have changed", changed, deleted)
    changed = trial.source.change_about(100)
    trial.mirror("what is about elements has changed", "--elements")
    compare_elements(trial, "what is about elements has changed")
    trial.performed("what is about elements has changed", changed, [])
    trial.source.write_as("scripts/mirror-source", "")


def check_provenance(trial):
    """Moves of records with elements about them, each of which then says where it was harvested; that alone changes none."""
    arguments, begun = ["--elements", "--provenance"], stamp_now()
    trial.source.write_as("scripts/mirror-source/elements", "", has_about=True)
    trial.new_target({name: it for name, it in JOURNAL.items() if name != "fields"}, MARC, DATACITE)
    trial.to_target.cuts += [(POST, lambda request, relay: relay.answer(request)), (POST, drop_answer(trial.target, True))]
    trial.mirror("provenance", *arguments)
    compare_elements(trial, "provenance", begun)
    trial.performed("provenance", *items_of(trial.source))
    os.remove(trial.state)
    trial.mirror("provenance again, without a state", *arguments)
    trial.performed("provenance again", [], [])
    changed, deleted = trial.source.change(50, 20)
    trial.mirror("provenance of what has changed", *arguments)
    compare_elements(trial, "provenance of what has changed", begun)
    trial.performed("provenance of what has changed", changed, deleted)
    changed = trial.source.change_about(50)
    trial.mirror("what is about records has changed", *arguments)
    compare_elements(trial, "what is about records has changed", begun)
    trial.performed("what is about records has changed", changed, [])
    os.remove(trial.state)
    trial.mirror("without provenance", "--elements")
    compare_elements(trial, "without provenance")
    trial.performed("without provenance", [it for it in trial.source.live()], [])
    trial.source.write_as("scripts/mirror-source", "")


PARTS = {"moves": check_moves, "source": check_source, "target": check_target, "elements": check_elements, "provenance": check_provenance}


def mirror_trial(*parts: typing.Literal["moves", "source", "target", "elements", "provenance"]):
    """Shows that scripts/mirror moves an archive from a data provider that is not this repository's own.

    That is Dancer::Plugin::Catmandu::OAI under starman (mirror-source/app.psgi); the target is a server of `oaihostd`.
    ITEMS records in sets, in two formats, with texts that are hard to carry, some of them deleted; and three whose
    identifiers are no URIs, which must be refused by name. Source and target are harvested by the library HTTP::OAI and
    compared after each run, and what was deposited is counted in the journal of the target: an item once for each
    change, and none that had not changed. The parts:
      moves    a whole archive; again, where nothing changed; 500 changes and 50 deletions; changes of one set, for that set alone
      source   500 changes and 50 deletions each time, where the source says 503, refuses a token, is killed in the middle of a list and started again;
               is killed, and started for the next run
      target   a whole archive each time, where the target is killed when half of a message has come, or when its answer is on the way, and started
               again; is killed so, and started for the next run
      elements a whole archive with --elements, in four formats, whose records have attributes, nested elements and prefixes in values, while source and
               target are killed; again; 500 changes and 50 deletions, with kills, where the protocol's elements have a prefix; 100 changes of what is about
               records alone. Each record is then the source's, as a tree and in the canonical form, and so is each element about it
      provenance  the same with --provenance, with a kill; again, which changes nothing; changes, deletions and changes of what is about records alone.
               Each record then says where it was harvested, around what the source says of that; and without the option no more
    Between the two and the program stand relays, which cut. It ends with `N runs, M differences`; the status is 0 where
    M is 0. ITEMS is the number of items, 5000 if it is not set: at least 1000. Packages of Debian:
        apt-get install libhttp-oai-perl libdancer-plugin-catmandu-oai-perl starman
    """
    needs("perl", "starman", perl=["HTTP::OAI", "Dancer", "Catmandu"])
    oaihostd()
    parts = parts or list(PARTS)
    if ITEMS < 1000:
        sys.exit("mirror-trial: ITEMS is to be at least 1000")
    with tempfile.TemporaryDirectory(prefix="mirror-trial-") as folder:
        trial = Trial(folder)
        try:
            for it in parts:
                PARTS[it](trial)
        finally:
            trial.source.kill()
            trial.target.kill()
    print(f"mirror-trial: {' '.join(parts)}: {len(trial.source.items)} items: {trial.runs} runs, {trial.differences} differences")
    return int(trial.differences > 0)
