"""Kills a server at random moments, and shows that it kept what it acknowledged."""

import http.client
import json
import os
import random
import re
import shutil
import signal
import subprocess
import sys
import tempfile
import threading
import time

from oai import model as models
from oai.clients import exchange
from oai.journal import Journal, records_in, split_parts
from oai.programs import oaihostd
from oai.servers import serve_durably, write_configuration

# For how many seconds an answer is waited for.
PATIENCE = 60
CLIENTS = 6
# After how many kills a new folder is begun: its journal is short at first, and becomes long for several checkpoints.
ROUNDS = (1, 2, 3, 4, 15)
# By how much `checkpoint` raises the number of each next list.
RAISE = 1_000_000
CHUNK = 3
VARYING = re.compile(r"<responseDate>[^<]*</responseDate>| expirationDate=\"[^\"]*\"")
TOKEN = re.compile(r"<resumptionToken[^>]*>(\d+)\.(\d+)</resumptionToken>")
ACKNOWLEDGED = re.compile(r"ok (\S+)")


def repository(name, granularity, kept):
    midnight = "2020-01-01" + ("" if granularity == "days" else "T00:00:00Z")
    return {
        "name": name, "repositoryName": f"Archive {name}", "adminEmail": ["a@host.example"], "earliestDatestamp": midnight,
        "deletedRecord": kept, "granularity": granularity, "chunk": CHUNK, "lifetime": 1_000_000, "lists": 10_000,
        "items": 100_000, "formats": [],
    }


CONFIGURATION = {
    "base": "http://host.example", "cache": 4,
    "repositories": [repository("a", "seconds", "persistent"), repository("b", "days", "transient")],
}


# A record with a title that is an element.
ELEMENT = (
    f'<o:dc xmlns:o="{models.OAI}oai_dc/" xmlns:dc="http://purl.org/dc/elements/1.1/"><!-- c -->\n'
    "<dc:title>{}</dc:title><dc:date xml:lang='en'/></o:dc>"
)

# Two elements about it.
ABOUT = {"oai_dc": ["<rights xmlns='http://host.example/rights/'>free</rights>", "<?xml version='1.0'?><p:note xmlns:p='urn:x' p:a='&#xe9;'/>"]}


# By how many bytes the journal is longer than twice what it was, where a checkpoint begins.
AFTER = 2_000


def start(config, folder):
    """A server on that folder, which may not start."""
    behind = ("--checkpoint-after", str(AFTER))
    return serve_durably(config, folder, behind=behind, errors=tempfile.TemporaryFile("w+"), may_end=True)


class Follower(threading.Thread):
    """Holds each file open that stands as the journal while a server serves: the one of before a checkpoint stays whole."""

    def __init__(self, path):
        super().__init__()
        self.path, self.files, self.over = path, [open(path, "rb")], threading.Event()

    def run(self):
        while not self.over.wait(0.0005):
            self.look()

    def look(self):
        """Opens the journal, if it is another file."""
        if os.stat(self.path).st_ino != os.fstat(self.files[-1].fileno()).st_ino:
            self.files.append(open(self.path, "rb"))

    def end(self):
        """What is in each of the files."""
        self.over.set()
        self.join()
        self.look()
        held = []
        for it in self.files:
            with it:
                held.append(it.read())
        return held


class Known:
    """What clients were told: of each item what was acknowledged last, and what was sent and not answered; parts of lists by their tokens."""

    def __init__(self):
        self.lock = threading.Lock()
        self.items, self.unanswered, self.touched = {}, {}, set()
        self.parts, self.numbers = {}, {}
        self.acknowledged = []
        self.differences = self.switches = 0

    def differ(self, what):
        with self.lock:
            self.differences += 1
        print(what, flush=True)

    def first_part(self, name, verb, query, body):
        """Takes note of the first part of a list, and that its number was never given before."""
        token = TOKEN.search(body)
        if not token:
            return
        with self.lock:
            key = (name, token[1])
            twice = key in self.numbers
            self.numbers[key] = query
            self.parts.setdefault((name, verb, f"{token[1]}.{token[2]}"), None)
            self.acknowledged.append((name, "oai", query))
        if twice:
            self.differ(f"list {token[1]} of {name} was begun twice")

    def part(self, name, verb, token, body):
        """Takes note of the part that a token was answered with, which has to be that of before."""
        stable = VARYING.sub("", body)
        with self.lock:
            before = self.parts.get((name, verb, token))
            self.parts[(name, verb, token)] = stable
            after = TOKEN.search(body)
            if after:
                self.parts.setdefault((name, verb, f"{after[1]}.{after[2]}"), None)
            self.acknowledged.append((name, "oai", f"verb={verb}&resumptionToken={token}"))
        if before not in (None, stable):
            self.differ(f"token {token} of {name}: another part than before")


class Client(threading.Thread):
    """Sends one message after the other, until the server is gone."""

    def __init__(self, server, known, number, serial):
        super().__init__()
        self.server, self.known, self.number, self.serial = server, known, number, serial
        self.random = random.Random(serial)
        self.count = 0
        self.mine = []

    def run(self):
        try:
            connection = self.server.connect(PATIENCE)
            while True:
                self.send(connection)
        except (OSError, http.client.HTTPException):
            pass

    def send(self, connection):
        name = self.random.choice("ab")
        turn = self.random.random()
        if turn < 0.6:
            self.deposit(connection, name)
        elif turn < 0.75:
            self.list(connection, name)
        elif turn < 0.9:
            self.resume(connection)
        else:
            exchange(connection, f"/oai/{name}?verb=Identify")

    def line(self, name):
        """A line, the item that it is about, and the state that it gives the item: a title, or None for a deletion."""
        self.count += 1
        stands = [it for it in self.mine if self.known.items.get(it, (None, None))[1] is not None and it[0] == name]
        if stands and self.random.random() < 0.3:
            item = self.random.choice(stands)
            return {"delete": item[1]}, item, None
        item = (name, f"oai:{name}:{self.serial}-{self.count}")
        if stands and self.random.random() < 0.3:
            item = self.random.choice(stands)
        title = f"{self.serial}.{self.count} " + "t" * self.random.choice([0, 10, 3_000])
        command = self.random.choice(["deposit", "put"])
        # (so that some puts leave an item as it is)
        if command == "put" and item in stands and self.random.random() < 0.5:
            title = self.known.items[item][1]
        record = self.random.choice([[["title", title]], ELEMENT.format(title)])
        about = {"about": ABOUT} if self.random.random() < 0.3 else {}
        return {command: item[1], "sets": [], "records": {"oai_dc": record}} | about, item, title

    def deposit(self, connection, name):
        """Deposits some lines, each about another item."""
        lines = {}
        for _ in range(self.random.choice([1, 1, 1, 5, 40])):
            line, item, title = self.line(name)
            lines.setdefault(item, (line, title))
        body = "".join(json.dumps(line) + "\n" for line, _ in lines.values())
        with self.known.lock:
            for item, (_, title) in lines.items():
                self.known.unanswered[item] = title
                self.known.touched.add(item)
        status, said = exchange(connection, f"/deposit/{name}", body)
        stamps = ACKNOWLEDGED.findall(said)
        if status != 200 or len(stamps) != len(lines):
            self.known.differ(f"a deposit at {name}: {status} {said!r}")
            return
        with self.known.lock:
            self.known.acknowledged.append((name, "deposit", body))
            for stamp, (item, (_, title)) in zip(stamps, lines.items()):
                self.known.items[item] = (stamp, title)
                self.known.unanswered.pop(item)
        self.mine.extend(it for it in lines if it not in self.mine)

    def list(self, connection, name):
        """Begins a list: by a first second that no other request has."""
        self.count += 1
        verb = self.random.choice(["ListRecords", "ListIdentifiers"])
        first = models.second_text(1_000_000_000 + self.serial * 10_000 + self.count)
        query = f"verb={verb}&metadataPrefix=oai_dc" + (f"&from={first}" if name == "a" else "")
        status, body = exchange(connection, f"/oai/{name}?{query}")
        if status == 200:
            self.known.first_part(name, verb, query, body)

    def resume(self, connection):
        with self.known.lock:
            tokens = list(self.known.parts)[-40:]
        if tokens:
            ask_part(connection, self.known, *self.random.choice(tokens))


def ask_part(connection, known, name, verb, token):
    """Asks for the part of a list that a token was handed out for."""
    status, body = exchange(connection, f"/oai/{name}?verb={verb}&resumptionToken={token}")
    if status != 200 or "<error" in body:
        known.differ(f"token {token} of {name}: {status} {body[-200:]!r}")
        return
    known.part(name, verb, token, body)


def perform(model, record):
    """Lets the model perform a record; what it answers."""
    moment, kind, name, body = record
    repository = model.repositories[name]
    if kind == "deposit":
        lines = [it for it in body.split("\n") if it.strip(" \t\r")]
        return "".join(repository.change(moment, it) for it in lines)
    if kind == "oai":
        return repository.ask(moment, body)
    return repository.tick(moment)


def compare_begun(known, model, parts):
    """Whether a checkpoint has the next numbers, the open lists and the items of the model."""
    for name, repository in model.repositories.items():
        mine = [it for it in parts if it[2] == name]
        numbers = [int(body) for _, kind, _, body in mine if kind == "begin"]
        lists = [int(body.split(" ")[0]) for _, kind, _, body in mine if kind == "list"]
        items = {}
        for _, kind, _, body in mine:
            if kind == "item":
                items[identifier_in(body)] = True
            elif kind == "gone":
                items.pop(body)
        if numbers != [repository.next] or lists != sorted(repository.lists):
            known.differ(f"a checkpoint of {name} has the number {numbers} and the lists {lists}")
        if set(items) != set(repository.items):
            known.differ(f"a checkpoint of {name} has other items: {len(items)}")


def identifier_in(item):
    """The identifier of an item, as a checkpoint spells it: behind a byte and eight more stands its length, in four."""
    return re.search(r"oai:[ab]:[0-9-]+", item)[0]


def perform_all(known, model, journal, held):
    """Lets the model perform what came since, over all files that stood as the journal. None where one has not the records of the one before it, or where
    those of before are others now."""
    records, _ = records_in(held[0], journal.at)
    if held[0][: journal.at] != journal.known:
        return None
    came = [it for it in records if it[1] != "journal"]
    before, done = split_parts(records_in(held[0])[0])[1], list(came)
    for file in held[1:]:
        parts, behind = split_parts(records_in(file)[0])
        first = len(before) - len(came)
        at = next((it for it in range(first, len(before) + 1) if before[it:] == behind[: len(before) - it]), None)
        if at is None:
            return None
        for record in before[first:at]:
            perform(model, record)
        compare_begun(known, model, parts)
        for record in before[at:]:
            perform(model, record)
        came = behind[len(before) - at :]
        done += came
        before = behind
        known.switches += 1
    for record in came:
        perform(model, record)
    if len(held) > 1:
        journal.at, journal.known = 0, b""
    return done


def find_acknowledged(known, records):
    """Whether each exchange that was acknowledged stands among the records that came since."""
    came = {}
    for _, kind, name, body in records:
        came[(name, kind, body)] = came.get((name, kind, body), 0) + 1
    for it in known.acknowledged:
        came[it] = came.get(it, 0) - 1
        if came[it] < 0:
            known.differ(f"acknowledged, and not in the journal: {it[0]} {it[1]} {it[2][:100]!r}")
    known.acknowledged.clear()


def state_of(body):
    """The datestamp and the title of a record, or None for a deleted item; and None, None for no item."""
    stamp = re.search("<datestamp>([^<]*)</datestamp>", body)
    title = re.search("<dc:title>([^<]*)</dc:title>", body)
    return (stamp and stamp[1], title and title[1])


def compare_items(connection, known, model):
    """Whether each item that was touched stands as it was acknowledged, and as the model has it."""
    for item in known.touched:
        name, identifier = item
        _, body = exchange(connection, f"/oai/{name}?verb=GetRecord&metadataPrefix=oai_dc&identifier={identifier}")
        found, wanted = state_of(body), known.items.get(item, (None, None))
        pending = item in known.unanswered and found[1] == known.unanswered[item] and found[0]
        if found != wanted and not pending:
            known.differ(f"{identifier}: {found} where {wanted} was acknowledged")
        held = model.repositories[name].items.get(identifier)
        shown = held and models.element("GetRecord", model.repositories[name].record(held, "oai_dc"))
        if (shown not in body) if shown else ("idDoesNotExist" not in body):
            known.differ(f"{identifier}: not as the records of the journal make it")
        known.items[item] = found
        known.unanswered.pop(item, None)
    known.touched.clear()


def model_part(repository, verb, token):
    """The part of an open list as the model has it; the list stays as it is."""
    number, cursor = (int(it) for it in token.split("."))
    held = repository.lists[number]
    end, given, finished = held.end, held.given, repository.finished
    page = repository.page(held, cursor)
    held.end, held.given, repository.finished = end, given, finished
    document = repository.document({"verb": verb, "resumptionToken": token}, models.element(verb, page))
    return VARYING.sub("", document)


def compare_parts(connection, known, model):
    """Whether each token that was handed out last is answered as before, and as the model does."""
    for name, verb, token in list(known.parts)[-60:]:
        ask_part(connection, known, name, verb, token)
        repository = model.repositories[name]
        if int(token.split(".")[0]) not in repository.lists:
            known.differ(f"token {token} of {name}: the journal has no such list")
        elif known.parts[(name, verb, token)] != model_part(repository, verb, token):
            known.differ(f"token {token} of {name}: not the part that the records of the journal make")


def tear(path, end, chance):
    """Cuts or overwrites bytes after the commit byte that ends the journal, at `end`."""
    size = os.path.getsize(path)
    way = chance.randrange(3)
    with open(path, "r+b") as file:
        if way == 0:
            file.truncate(chance.randint(end + 1, max(size, end + 1)))
        else:
            file.seek(end + 1)
            file.write(chance.randbytes(chance.choice([1, 50, 5_000])))
        if way == 2:
            file.seek(0)
            front = file.read(200)
            file.seek(end + 1)
            file.write(front)


def compare_torn(config, folder, known, journal, chance, count):
    """Whether a copy of the folder with other bytes behind the journal's end has the same records."""
    copy = f"{folder}-torn"
    shutil.rmtree(copy, ignore_errors=True)
    shutil.copytree(folder, copy)
    tear(f"{copy}/journal", journal.at, chance)
    server = start(config, copy)
    if server.port is None or f"recovered: {count} records, " not in server.said():
        known.differ(f"a torn copy: {server.said()!r} where {count} records are")
    server.kill()
    shutil.rmtree(copy)


def verified(folder, known):
    """What `verify` finds: how many records, and how many bytes."""
    done = subprocess.run([oaihostd(), "verify", folder], capture_output=True, text=True)
    found = re.fullmatch(r"ok (\d+) (\d+)\n", done.stdout)
    if not found:
        known.differ(f"verify: {done.stderr!r}")
        return None
    return int(found[1]), int(found[2])


def save(config, folder, chance):
    """Calls `checkpoint`, which is killed somewhere in between half of the times."""
    called = subprocess.Popen([oaihostd(), "checkpoint", config, folder], stdout=subprocess.PIPE, stderr=subprocess.PIPE, text=True)
    if chance.random() < 0.5:
        time.sleep(chance.random() * chance.choice([0.01, 0.05, 0.2]))
        called.send_signal(signal.SIGKILL)
    said, errors = called.communicate()
    return called.returncode, said, errors


def end_lists(model, known):
    """Lets all lists end, as a checkpoint does: no token of before is answered, and no number of before is given again."""
    for repository in model.repositories.values():
        repository.lists.clear()
        repository.next += RAISE
    known.parts.clear()


def compare_saved(config, folder, known, model, journal, performed, chance):
    """Calls `checkpoint`; how many records the journal then has."""
    status, said, errors = save(config, folder, chance)
    if not journal.was_replaced():
        if status == 0:
            known.differ("checkpoint: the journal is as it was")
        return performed
    records = journal.read_on()
    count = len(records) - 1
    if status == 0 and said != f"ok {count} {journal.at}\n":
        known.differ(f"checkpoint: {said!r} {errors!r} where {count} records and {journal.at} bytes are")
    if verified(folder, known) != (count, journal.at):
        known.differ(f"verify does not find the {count} records of a checkpoint")
    items = [it for it in records if it[1] == "item"]
    if len(items) != sum(len(it.items) for it in model.repositories.values()):
        known.differ(f"a checkpoint has {len(items)} items")
    end_lists(model, known)
    return count


def attack(server, known, serial, chance, look):
    """Lets clients send until the server is killed; `look` is called meanwhile."""
    clients = [Client(server, known, it, serial + it) for it in range(CLIENTS)]
    for it in clients:
        it.start()
    time.sleep(chance.choice([0.02, 0.1, 0.5, 1, 3]) * (0.5 + chance.random()))
    look()
    server.kill()
    for it in clients:
        it.join()


def rounds(config, folder, count, chance, known):
    model, journal = models.Host(CONFIGURATION, has_elements=True), Journal(f"{folder}/journal")
    server = start(config, folder)
    for number in range(count):
        follower = Follower(f"{folder}/journal")
        follower.start()
        attack(server, known, number * CLIENTS, chance, lambda: verified(folder, known))
        records = perform_all(known, model, journal, follower.end())
        if records is None:
            known.differ("records that were in the journal are others now")
            return number + 1
        journal.read_on()
        performed = len(records_in(journal.known)[0]) - 1
        if verified(folder, known) != (performed, journal.at):
            known.differ(f"verify does not find {performed} records and {journal.at} bytes")
        find_acknowledged(known, records)
        if number % 3 == 0:
            compare_torn(config, folder, known, journal, chance, performed)
        if number % 2 == 1:
            performed = compare_saved(config, folder, known, model, journal, performed, chance)
        server = start(config, folder)
        if server.port is None:
            known.differ(f"no start: {server.said()!r}")
            return number + 1
        connection = server.connect(PATIENCE)
        compare_items(connection, known, model)
        compare_parts(connection, known, model)
        connection.close()
    server.kill()
    return count


def kill(count: int, seed: int = None):
    """Kills a server with -9 at COUNT random moments, restarts it each time, and shows that acknowledged writes are durable.

    That is every deposit, of fields or of an element, with elements about it or none, and every deletion, with its
    datestamp; every token that it handed out; and no number of a list is given twice. A round: six clients deposit,
    delete, list and ask for parts of lists at two repositories, until the server is killed somewhere in between; it is
    started again on its folder; and then are compared: what its journal holds with what was acknowledged, each item
    that the round touched with what was acknowledged of it and with a model that replayed the journal's records, and
    each part of a list that a token was handed out for with the part that was given before, and with the model's. The
    journal has to be found good beside the server, and all of its records behind it. Every third round it is started on
    a copy of its folder first, in which the bytes after the commit byte that ends the journal are cut or overwritten:
    it has to find the same records there. Before every second start `checkpoint` is called, and half of the times
    killed somewhere in between: the journal is then as it was, or a checkpoint, at which all lists have ended.

    The server writes a checkpoint once its journal is 2,000 bytes longer than twice what it was, which takes the place
    of the journal while the clients go on: it has the next numbers, the open lists and the items of the model as it
    began, and behind them stand the same records.

    It writes its seed to standard error, and names each difference; its last line is `N kills, 0 differences`, and its
    status is 0 where there are none.
    """
    seed = random.randrange(1 << 32) if seed is None else seed
    print(f"seed {seed}", file=sys.stderr)
    chance, kills, differences, switches = random.Random(seed), 0, 0, 0
    with tempfile.TemporaryDirectory(prefix="kill-") as place:
        config = f"{place}/config.json"
        write_configuration(config, CONFIGURATION)
        while kills < count and not differences:
            known = Known()
            kills += rounds(config, f"{place}/folder", min(count - kills, chance.choice(ROUNDS)), chance, known)
            differences, switches = differences + known.differences, switches + known.switches
            shutil.rmtree(f"{place}/folder")
    print(f"{switches} checkpoints while it served")
    print(f"{kills} kills, {differences} differences")
    return int(differences > 0)
