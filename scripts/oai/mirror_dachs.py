"""Moves the records of DaCHS, the data provider of the Virtual Observatory, with scripts/mirror, and compares."""

import contextlib
import io
import os
import pathlib
import random
import re
import shutil
import subprocess
import tempfile
import urllib.parse
import urllib.request
from xml.etree import ElementTree
from xml.sax.saxutils import escape

from oai.items import any_text, configuration
from oai.mirror_trial import free_port, wait_for
from oai.programs import needs, oaihostd
from oai.record_formats import OAI
from oai.servers import serve_durably, write_configuration
from oai.trials import Trial

SEED = 61

# The format beside oai_dc. Its records have some ten namespaces, and prefixes in values.
RESOURCE = {
    "prefix": "ivo_vor", "schema": "http://www.ivoa.net/xml/VOResource/v1.0",
    "namespace": "http://www.ivoa.net/xml/RegistryInterface/v1.0", "root": "Resource",
}  # fmt: skip

TYPE = "{http://www.w3.org/2001/XMLSchema-instance}type"

# Where the package keeps what is published.
INPUTS = pathlib.Path("/var/gavo/inputs/mirror_dachs")

SETTINGS = """[general]
maintainerAddress: a@source.example
[web]
serverURL: http://127.0.0.1:{0}
serverPort: {0}
bindAddress: 127.0.0.1
[ivoa]
authority: source.example
"""

COUNTS = re.compile(r"new (\d+), changed (\d+), deleted (\d+), unchanged (\d+), sets \d+, refused (\d+)\n")


class Source:
    """DaCHS with records of its own, below the settings in a folder."""

    def __init__(self, folder, count):
        self.folder, self.port, self.random = folder, free_port(), random.Random(SEED)
        self.titles = {number: self.title(number) for number in range(count)}
        (folder / "settings").write_text(SETTINGS.format(self.port))
        INPUTS.mkdir(exist_ok=True)

    def title(self, number):
        return f"{line_of(self.random)} {number}"

    def start(self, *arguments):
        """Starts a command of DaCHS as its user."""
        environment = {"PATH": os.environ["PATH"], "HOME": str(self.folder), "GAVOSETTINGS": f"{self.folder}/settings"}
        who = {"user": "dachsroot", "group": "gavo", "extra_groups": [], "cwd": "/", "env": environment}
        with open(self.folder / "log", "ab") as log:
            return subprocess.Popen(["dachs", *arguments], stdout=log, stderr=subprocess.STDOUT, **who)

    def publish(self):
        """Publishes the records that there are by now; those that are gone are deleted."""
        records = "".join(self.record(number, title) for number, title in self.titles.items())
        (INPUTS / "q.rd").write_text(f'<resource schema="mirror_dachs">{records}</resource>', encoding="utf-8")
        if self.start("publish", "mirror_dachs/q").wait():
            raise SystemExit((self.folder / "log").read_text())

    def record(self, number, title):
        texts = [
            ("resType", random.Random(number).choice(["document", "organization"])), ("creationDate", "2020-01-01T00:00:00Z"), ("title", title),
            ("subject", "stars"), ("subject", "spectroscopy"), ("description", line_of(random.Random(number)) + "."), ("creator.name", "Æsop, A."),
            ("publisher", "Łódź & others"), ("contact.name", "A. Archivist"), ("contact.email", "a@source.example"),
            ("referenceURL", "http://source.example/a?b&c"), ("sets", "ivo_managed"),
        ]  # fmt: skip
        metas = "".join(f'<meta name="{name}">{escape(text)}</meta>' for name, text in texts)
        return f'<resRec id="r{number}">{metas}</resRec>'

    def change(self):
        """Gives a third of the records another title, and takes away a tenth."""
        for number in list(self.titles):
            if number % 10 == 5:
                del self.titles[number]
            elif number % 3 == 0:
                self.titles[number] = self.title(number)
        self.publish()


def line_of(chance):
    """A text at random without line ends and tabs, of which DaCHS makes paragraphs."""
    return " ".join(any_text(chance).split())


def records_at(base, prefix):
    """Each record there, by its identifier: its sets and its element; None where it is deleted."""
    found, query = {}, f"metadataPrefix={prefix}"
    while query:
        with urllib.request.urlopen(f"{base}?verb=ListRecords&{query}", timeout=600) as answer:
            root, scopes = read(answer.read())
        for record in root.iter(f"{OAI}record"):
            header, metadata = record.find(f"{OAI}header"), record.find(f"{OAI}metadata")
            sets = sorted(it.text for it in header.iter(f"{OAI}setSpec"))
            found[header.findtext(f"{OAI}identifier")] = None if header.get("status") == "deleted" else (sets, seen(metadata[0], scopes))
        token = root.findtext(f".//{OAI}resumptionToken")
        query = token and "resumptionToken=" + urllib.parse.quote(token)
    return found


def read(data):
    """The root of a document, and for each of its elements the namespaces in force, by their prefixes."""
    scopes, stack, declared = {}, [{}], []
    for event, it in ElementTree.iterparse(io.BytesIO(data), ("start-ns", "start", "end")):
        if event == "start-ns":
            declared.append(it)
        elif event == "start":
            stack.append(stack[-1] | dict(declared))
            scopes[it], declared = stack[-1], []
        else:
            stack.pop()
    return it, scopes


def seen(element, scopes):
    """An element by its expanded name, with its attributes, of which a type is an expanded name too, and what stands in it."""
    attributes = dict(element.attrib)
    if TYPE in attributes:
        prefix, _, local = attributes[TYPE].rpartition(":")
        attributes[TYPE] = scopes[element].get(prefix), local
    return element.tag, attributes, element.text or "", [(seen(it, scopes), it.tail or "") for it in element]


class Move:
    """Runs of scripts/mirror from a source to an empty server of `oaihostd`."""

    def __init__(self, trial, source, target, folder):
        self.trial, self.source, self.target, self.state = trial, f"http://127.0.0.1:{source.port}/oai.xml", target, folder / "state"

    def run(self, what, *arguments):
        """Runs it; how many records were new, changed, deleted, unchanged and refused."""
        command = ["scripts/mirror", self.source, f"http://127.0.0.1:{self.target.port}/deposit/archive", self.state, "--elements", *arguments]
        ran = subprocess.run(command, capture_output=True, text=True, check=False)
        print(f"{what}: {ran.stdout.strip()} {ran.stderr.strip()}", flush=True)
        found = COUNTS.match(ran.stdout)
        self.trial.check(f"{what}: the status", (ran.returncode, bool(found)), (0, True))
        return tuple(map(int, found.groups())) if found else (None,) * 5

    def compare(self, what):
        """Compares each record in both formats; which are live."""
        for prefix in ("oai_dc", RESOURCE["prefix"]):
            theirs, ours = records_at(self.source, prefix), records_at(self.target.base(), prefix)
            self.trial.check(f"{what}: the identifiers in {prefix}", sorted(ours), sorted(theirs))
            for name in theirs.keys() & ours.keys():
                self.trial.check(f"{what}: {name} in {prefix}", ours[name], theirs[name])
        return {name for name, it in theirs.items() if it}


@contextlib.contextmanager
def running(process, port):
    """A process that listens on a port, from here to the end of the `with`."""
    try:
        wait_for(port, 600)
        yield
    finally:
        process.kill()
        process.wait()


def mirror_dachs(records: int = 200):
    """Shows that scripts/mirror moves the records of DaCHS, the data provider of the Virtual Observatory, which nobody here has written.

    DaCHS publishes RECORDS records, in oai_dc and as VOResource; its documents give the protocol's elements a prefix,
    and declare all namespaces of records on their root. They are moved with --elements to a server of `oaihostd`;
    again, without a state; and once a third has changed and a tenth was taken away; and with --provenance, by which
    each changes once. Each record is then compared, as a tree. It is for a machine that uses DaCHS for nothing else:
    what it published stays there, as deleted. Packages of Debian, which want PostgreSQL to run (`pg_ctlcluster 15 main
    start`):
        apt-get install gavodachs2-server libhttp-oai-perl
    Its last line is `N checked, M differ`; the status is 0 where M is 0.
    """
    needs("perl", "dachs", perl=["HTTP::OAI"], root=True)
    oaihostd()
    trial, made = Trial(), configuration(100, 3600, 1000, 10_000)
    made["repositories"][0]["formats"] = [RESOURCE]
    with tempfile.TemporaryDirectory(prefix="mirror-dachs-") as name:
        folder = pathlib.Path(name)
        folder.chmod(0o755)
        write_configuration(folder / "config.json", made)
        source = Source(folder, records)
        try:
            source.publish()
            with running(source.start("serve", "debug"), source.port), serve_durably(folder / "config.json", folder / "archive") as target:
                compare_moves(trial, source, Move(trial, source, target, folder))
        finally:
            source.titles = {}
            source.publish()
            shutil.rmtree(INPUTS)
    return trial.ended()


def compare_moves(trial, source, move):
    """A whole move, one where nothing changed, one of what has changed, and two that say where records were harvested."""
    move.run("a whole move")
    live = move.compare("a whole move")
    trial.check("how many were published", sum("/mirror_dachs/" in it for it in live), len(source.titles))
    move.state.unlink(missing_ok=True)
    new, changed, deleted, _, refused = move.run("nothing changed")
    trial.check("nothing changed", (new, changed, deleted, refused), (0, 0, 0, 0))
    source.change()
    *_, deleted, _, refused = move.run("what has changed")
    left = move.compare("what has changed")
    trial.check("what has changed: deletions and refusals", (deleted, refused), (len(live) - len(left), 0))
    trial.check("how many are left", sum("/mirror_dachs/" in it for it in left), len(source.titles))
    for what, changes in {"with provenance": len(left), "with provenance, again": 0}.items():
        move.state.unlink()
        new, changed, deleted, _, refused = move.run(what, "--provenance")
        trial.check(what, (new, changed, deleted, refused), (0, changes, 0, 0))
    move.compare("with provenance")
