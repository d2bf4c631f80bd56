"""Harvests a generated archive by a foreign harvester, and compares what it read with what was deposited."""

import calendar
import glob
import json
import os
import random
import re
import subprocess
import sys
import tempfile
import time

from oai.clients import post
from oai.items import DUBLIN_CORE, EARLIEST, JOURNAL, NAME, any_fields, configuration, deposit
from oai.model import covers, shown_sets
from oai.programs import needs
from oai.servers import Server

SEED = 20

# How many items are deposited, in bodies of so many lines; and how many changes are made behind the first harvest.
ITEMS = int(os.environ.get("ITEMS", "5000"))
BODY = 250
CHANGES = 500

# How many records an answer has.
CHUNK = 100

# How many harvests of what is new follow a whole one, for a copy.
LATER = 3

# The sets, each with its name. A set lies in that whose parts are its first ones. The library refuses to ask for one with a `~`.
SETS = {
    "theses": "Theses & Dissertations",
    "theses:law": "<Law>",
    "theses:law:canon": 'Canon "law"',
    "letters": "Lettres, письма, 手紙",
    "a-z.(1)!": "A name that says ']]>' and 😀",
}

RESPONSE_DATE = re.compile("<responseDate>([^<]*)</responseDate>")
DC_NAMESPACE = "http://purl.org/dc/elements/1.1/"
DC_ROOT = "{http://www.openarchives.org/OAI/2.0/oai_dc/}dc"


class Archive:
    """What a repository must tell, by the lines that were deposited and the datestamps that answered them."""

    def __init__(self):
        self.sets = []
        self.items = {}

    def take(self, line, stamp):
        if "set" in line:
            self.sets.append({"setSpec": line["set"], "setName": line["name"]})
        elif "delete" in line:
            item = self.items[line["delete"]]
            self.items[line["delete"]] = {**item, "datestamp": stamp, "status": "deleted"}
        else:
            self.items[line["deposit"]] = {
                "identifier": line["deposit"],
                "datestamp": stamp,
                "status": "live",
                "sets": shown_sets(line["sets"]),
                "records": line["records"],
            }

    def of_status(self, status):
        return [name for name, it in self.items.items() if it["status"] == status]

    def selected(self, metadataPrefix, **bounds):
        """The items that a list request selects, in the order of their datestamps and identifiers."""
        lower = bounds.get("from", "")
        upper = bounds.get("until", "9999")
        upper += "T23:59:59Z" if len(upper) == len("2024-01-01") else ""
        wanted = bounds.get("set")
        return sorted(
            (
                it
                for it in self.items.values()
                if metadataPrefix in it["records"]
                and lower <= it["datestamp"] <= upper
                and (wanted is None or any(covers(wanted, spec) for spec in it["sets"]))
            ),
            key=lambda it: (it["datestamp"], it["identifier"]),
        )


def header_of(item):
    return {name: item[name] for name in ("identifier", "datestamp", "status", "sets")}


def record_of(item, prefix):
    """What a harvester reads of a record."""
    if item["status"] == "deleted":
        return header_of(item)
    namespace = DC_NAMESPACE if prefix == "oai_dc" else JOURNAL["namespace"]
    root = DC_ROOT if prefix == "oai_dc" else f"{{{namespace}}}{JOURNAL['root']}"
    fields = [[f"{{{namespace}}}{name}", text] for name, text in item["records"][prefix]]
    return {**header_of(item), "root": root, "fields": fields}


class Author:
    """Thinks of the lines to deposit, with the same numbers at random in each run."""

    def __init__(self, archive):
        self.random = random.Random(SEED)
        self.archive = archive
        self.count = 0

    def some_sets(self):
        return self.random.choices(list(SETS), k=self.random.randrange(4))

    def records(self, prefixes):
        names = {"oai_dc": DUBLIN_CORE, "jnl": JOURNAL["fields"]}
        return {it: any_fields(self.random, names[it]) for it in prefixes}

    def new_item(self):
        self.count += 1
        identifier = f"oai:host.example:{self.random.choice(['', 'x/', '%C3%A9-', '(a);', 'A&B='])}{self.count}"
        return deposit(identifier, self.some_sets(), self.records(self.random.choice([["oai_dc"], ["oai_dc", "jnl"]])))

    def new_state(self, identifier):
        """Another state of an item, in each format that it has, and perhaps in one more."""
        formats = self.archive.items[identifier]["records"]
        return deposit(identifier, self.some_sets(), self.records(sorted({*formats, self.random.choice(["oai_dc", "jnl"])})))

    def changes(self, states, deletions, revivals):
        """Lines that change so many items, each once."""
        live = self.random.sample(self.archive.of_status("live"), states + deletions)
        deleted = self.random.sample(self.archive.of_status("deleted"), revivals)
        lines = [self.new_state(it) for it in live[:states] + deleted] + [{"delete": it} for it in live[states:]]
        self.random.shuffle(lines)
        return lines


class Harvest:
    """Deposits and harvests, and the differences that were found."""

    def __init__(self, server, folder):
        self.server = server
        self.folder = folder
        self.archive = Archive()
        self.author = Author(self.archive)
        self.count = 0
        self.differences = 0
        self.documents = 0

    def differ(self, text):
        self.differences += 1
        print(f"DIFFERENCE: {text}", flush=True)

    def deposit(self, lines):
        """Deposits lines in one body. They are done at one moment, which lies between the two at which we looked at our clock."""
        before = stamp_now()
        connection = self.server.connect()
        said = post(connection, lines)
        connection.close()
        after = stamp_now()
        stamp = said[0].removeprefix("ok ") if said else ""
        if not before <= stamp <= after:
            self.differ(f"a deposit between {before} and {after} is answered {said[:1]}")
        if said != [f"ok {stamp}"] * len(lines):
            self.differ(f"{len(lines)} lines are answered {[it for it in said if it != f'ok {stamp}'][:5]}, {len(said)} lines in all")
        for line in lines:
            self.archive.take(line, stamp)

    def change(self):
        """Deposits new items, and changes, deletes and revives others."""
        self.deposit([self.author.new_item() for _ in range(3 * CHANGES // 10)])
        self.deposit(self.author.changes(states=4 * CHANGES // 10, deletions=2 * CHANGES // 10, revivals=CHANGES // 10))

    def began(self):
        """The repository's datestamp at the first request of the last harvest: the responseDate of its first document."""
        with open(f"{self.folder}/{self.count}/1.xml", encoding="utf-8") as it:
            return RESPONSE_DATE.search(it.read())[1]

    def read(self, verb, meanwhile=None, **arguments):
        """What the harvester reads, and in how many documents; where there is something to do meanwhile, after the first one."""
        self.count += 1
        folder = f"{self.folder}/{self.count}"
        os.mkdir(folder)
        command = ["perl", "scripts/harvest.pl", *(["--pause"] if meanwhile else []), self.server.base(), folder, verb]
        command += [f"{name}={value}" for name, value in arguments.items()]
        entries = []
        with subprocess.Popen(command, stdin=subprocess.PIPE, stdout=subprocess.PIPE) as harvester:
            for line in harvester.stdout:
                entry = json.loads(line)
                if entry == {"paused": 1}:
                    meanwhile()
                    harvester.stdin.write(b"\n")
                    harvester.stdin.flush()
                else:
                    entries.append(entry)
        name = " ".join(command[command.index(verb) :])
        if harvester.returncode != 0:
            self.differ(f"{name}: the harvester ended with status {harvester.returncode}")
        return name, entries, len(os.listdir(folder))

    def compare(self, name, wanted, read):
        """Compares entries of which the first member is the key: which they are, each member of each, and their order."""
        before = self.differences
        key = next(iter(wanted[0]))
        found = {it.get(key): it for it in read}
        known = {it[key] for it in wanted}
        for entry in wanted:
            self.compare_entry(f"{name}: {entry[key]}", entry, found.get(entry[key]))
        for other in read:
            if other.get(key) not in known:
                self.differ(f"{name}: {other} should not be there")
        if before == self.differences and read != wanted:
            self.differ(f"{name}: the order is another, or an entry is there twice")

    def compare_entry(self, name, wanted, read):
        if read is None:
            self.differ(f"{name}: is missing")
            return
        for member in sorted({*wanted, *read}):
            if wanted.get(member) != read.get(member):
                self.differ(f"{name}: {member} should be {wanted.get(member)!r}, is {read.get(member)!r}")

    def answers(self, wanted, verb, meanwhile=None, **arguments):
        """Harvests, compares what is read with what is wanted, in parts of CHUNK entries, and gives it."""
        name, read, documents = self.read(verb, meanwhile, **arguments)
        print(f"{name}: {len(read)} entries, {documents} documents", flush=True)
        self.compare(name, wanted, read)
        parts = -(-len(wanted) // CHUNK)
        if documents != parts:
            self.differ(f"{name}: {documents} documents in place of {parts}")
        return read

    def list(self, verb, meanwhile=None, **arguments):
        """Compares a list with what is selected at its beginning, and gives what was read."""
        items = self.archive.selected(**arguments)
        prefix = arguments["metadataPrefix"]
        wanted = [header_of(it) if verb == "ListIdentifiers" else record_of(it, prefix) for it in items]
        return self.answers(wanted or [{"error": "noRecordsMatch"}], verb, meanwhile, **arguments)

    def lists(self, **arguments):
        self.list("ListIdentifiers", **arguments)
        return self.list("ListRecords", **arguments)

    def check_documents(self):
        """Asks xmllint whether each document is well-formed XML; how many there are."""
        paths = sorted(glob.glob(f"{self.folder}/*/*.xml"))
        told = subprocess.run(["xmllint", "--noout", *paths], stderr=subprocess.PIPE, text=True)
        if told.returncode != 0:
            self.differ(f"documents that are not well-formed:\n{told.stderr}")
        return len(paths)


def stamp_now():
    return stamp_of(time.time())


def stamp_of(seconds):
    return time.strftime("%Y-%m-%dT%H:%M:%SZ", time.gmtime(seconds))


def moved(stamp, seconds):
    """The datestamp so many seconds later."""
    return stamp_of(calendar.timegm(time.strptime(stamp, "%Y-%m-%dT%H:%M:%SZ")) + seconds)


def load(harvest):
    """Deposits the sets and the items. Among these some are changed and some deleted. It takes more than a few seconds, for the dates."""
    harvest.deposit([{"set": spec, "name": name} for spec, name in SETS.items()])
    for _ in range(ITEMS // BODY):
        harvest.deposit([harvest.author.new_item() for _ in range(BODY)])
        harvest.deposit(harvest.author.changes(states=10, deletions=16, revivals=0))
        time.sleep(0.3)


def check_others(harvest):
    """The answers beside lists of items."""
    repository = configuration(CHUNK, 1, 1, 1)["repositories"][0]
    identity = {name: repository[name] for name in ("repositoryName", "adminEmail", "earliestDatestamp", "deletedRecord")}
    identity |= {"baseURL": f"http://host.example/oai/{NAME}", "protocolVersion": "2.0", "granularity": "YYYY-MM-DDThh:mm:ssZ"}
    harvest.answers([identity], "Identify")
    harvest.answers(harvest.archive.sets, "ListSets")
    dublin_core = {
        "prefix": "oai_dc",
        "schema": "http://www.openarchives.org/OAI/2.0/oai_dc.xsd",
        "namespace": "http://www.openarchives.org/OAI/2.0/oai_dc/",
    }
    journal = {name: JOURNAL[name] for name in ("prefix", "schema", "namespace")}
    harvest.answers([dublin_core, journal], "ListMetadataFormats")
    for item in harvest.author.random.sample(list(harvest.archive.items.values()), 10):
        for prefix in item["records"]:
            arguments = {"identifier": item["identifier"], "metadataPrefix": prefix}
            harvest.answers([record_of(item, prefix)], "GetRecord", **arguments)


def check_lists(harvest):
    """Lists whole, by set, by dates and by both; gives the whole one."""
    whole = harvest.lists(metadataPrefix="oai_dc")
    harvest.lists(metadataPrefix="jnl")
    for spec in SETS:
        harvest.lists(metadataPrefix="oai_dc", set=spec)
    stamps = sorted(it["datestamp"] for it in harvest.archive.items.values())
    early, late = stamps[len(stamps) // 4], stamps[3 * len(stamps) // 4]
    dates = [
        {"from": late},
        {"until": early},
        {"from": early, "until": late},
        {"from": late, "until": late},
        {"from": EARLIEST[:10], "until": stamps[-1][:10]},
        {"from": moved(stamps[-1], 1)},
        {"until": moved(stamps[0], -1)},
    ]
    for bounds in dates:
        harvest.lists(metadataPrefix="oai_dc", **bounds)
    harvest.lists(metadataPrefix="jnl", set="theses", **{"from": early, "until": late})
    return whole


def check_changes(harvest, whole):
    """Changes while a list is read, of which it must show nothing; then a harvest of what is new, which must complete the first one."""
    harvest.list("ListRecords", meanwhile=harvest.change, metadataPrefix="oai_dc")
    newest = max(it["datestamp"] for it in whole)
    new = harvest.lists(metadataPrefix="oai_dc", **{"from": newest})
    copy = {it["identifier"]: it for it in whole + new}
    read = sorted(copy.values(), key=lambda it: (it["datestamp"], it["identifier"]))
    wanted = [record_of(it, "oai_dc") for it in harvest.archive.selected("oai_dc")]
    harvest.compare("the first harvest and the second one together", wanted, read)


def check_copy(harvest):
    """A copy that catches up with a whole harvest and then with later ones, each from the datestamp on at which the one before began. Between
    them and while each but the last is read, items are deposited, changed and deleted. It must equal a whole harvest."""
    copy = {}
    since = {}
    for later in range(LATER + 1):
        meanwhile = harvest.change if later < LATER else None
        for it in harvest.list("ListRecords", meanwhile, metadataPrefix="oai_dc", **since):
            copy[it["identifier"]] = it
        since = {"from": harvest.began()}
        if later < LATER:
            harvest.change()
    whole = [{"identifier": it["identifier"], **it} for it in harvest.list("ListRecords", metadataPrefix="oai_dc")]
    read = sorted(copy.values(), key=lambda it: (it["datestamp"], it["identifier"]))
    print(f"a copy of a whole harvest and {LATER} later ones: {len(read)} items", flush=True)
    harvest.compare("the copy and a whole harvest", whole, read)


def harvest_all(kind):
    """All deposits and harvests, of that kind; what came of them."""
    with Server(configuration(CHUNK, 3600, 1000, 4 * ITEMS)) as server, tempfile.TemporaryDirectory(prefix="interop-") as folder:
        harvest = kind(server, folder)
        load(harvest)
        check_others(harvest)
        check_changes(harvest, check_lists(harvest))
        check_copy(harvest)
        harvest.documents = harvest.check_documents()
    return harvest


def check_needs():
    """What a harvest needs, and the number of items."""
    needs("xmllint", "perl", perl=["HTTP::OAI"])
    if ITEMS < 1000 or ITEMS % BODY:
        sys.exit(f"interop: ITEMS is to be a multiple of {BODY} and at least 1000")


def interop():
    """Shows that a harvester which is not this repository's own reads each record unaltered.

    It starts the server with a generated archive (5,000 items in sets, some in two formats, some changed or deleted,
    with texts that XML must escape and texts beside ASCII), harvests it by the Perl library HTTP::OAI, and compares
    each identifier, datestamp, set, status and field with what was deposited: lists of identifiers and of records with
    their tokens, whole, by set, by dates; while 500 changes are made, of which a list that is open must show nothing;
    and a second harvest of what is new. Then a copy catches up with a whole harvest and with three later ones, each
    from the datestamp on at which the one before began, with deposits and deletions between them and amid them; it must
    equal a whole harvest. It asks xmllint whether each document is well-formed XML. Each difference is named; the
    status is 0 where there is none. It needs these packages of Debian:
        apt-get install libhttp-oai-perl libxml2-utils
    Where OAIHOSTD is set that program is tried; ITEMS is the number of items, 5000 if it is not set: a multiple of 250,
    at least 1000.
    """
    check_needs()
    harvest = harvest_all(Harvest)
    differences = f"{harvest.differences} differences" if harvest.differences else "nothing differs"
    print(f"interop: {harvest.count} harvests of {len(harvest.archive.items)} items, {harvest.documents} documents: {differences}")
    return int(harvest.differences > 0)
