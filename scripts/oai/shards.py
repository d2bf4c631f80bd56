"""An archive that is spread over several servers behind one nginx, by the lines that scripts/shards writes. What is expected is written from
docs/OPERATIONS.md, and of the lists from what was deposited."""

import concurrent.futures
import contextlib
import http.client
import json
import os
import pathlib
import random
import re
import ssl
import subprocess
import tempfile
import threading
import time
from xml.etree import ElementTree

from oai.connections import by_wrk
from oai.items import body_of, configuration, deposit, plain_text
from oai.keys import bearer, digest_of, text_of
from oai.model import OAI
from oai.programs import TOP, needs
from oai.proxy import Proxy, answer_through
from oai.servers import serve_durably, write_configuration
from oai.trials import Trial

SEED = 47
SERVERS = 4
ITEMS = int(os.environ.get("ITEMS", "300"))
CHUNK = 50

# How many lists of a repository are read at once, and for how many seconds GetRecord is measured.
READERS = 2
SECONDS = 5

# 40 repositories: names that mean something to nginx, that begin as others do, of the least and the most letters, and plain ones.
NAMES = ["default", "hostnames", "include", "volatile", "a", "a-b", "a-b-c", "oai", "deposit", "oaihostd", "theses", "newton", "-", "--", "0", "z" * 32]
NAMES += [f"archive-{number}" for number in range(40 - len(NAMES))]

# A repository that asks for a key.
KEYED, KEY = "theses", "on sets"

# Paths, below /oai/ and /deposit/, of no repository.
UNKNOWN = ["", "none", "A", "DEFAULT", "a/", "/a", "%61", "a%2Db", "a.b", "a_b", "a;b", "zz", "z" * 31, "z" * 33, "$oai_name", "../oai/a", "archive-", "~a"]

STATUS = re.compile(rb'^oaihostd_requests_total\{status="\d+"\} (\d+)$', re.MULTILINE)

TRUST = ssl._create_unverified_context()


def called(*arguments):
    """What scripts/shards does: its status, what it writes, and what it says."""
    done = subprocess.run([TOP / "scripts/shards", *map(str, arguments)], capture_output=True, text=True, timeout=60, check=False)
    return done.returncode, done.stdout, done.stderr


def configured(names):
    """The configuration of a server of these repositories."""
    made = configuration(chunk=CHUNK, lifetime=3600, lists=1000, items=100_000)
    made["repositories"] = [made["repositories"][0] | {"name": name, "repositoryName": f"Archive <{name}>"} for name in names]
    return made


class Repository:
    """What was deposited into a repository: of each item the datestamp and the fields, or None if it is deleted."""

    def __init__(self, name, seed):
        self.name, self.chance, self.held = name, random.Random(seed), {}

    def line(self, number):
        """A line that deposits an item, or at times deletes it, and its identifier and fields."""
        identifier = f"oai:{self.name}:{number:04}"
        fields = [["title", f"{self.name}: {plain_text(self.chance, 8)}"], ["creator", plain_text(self.chance, 2)]]
        if self.held.get(identifier, (0, None))[1] and self.chance.randrange(5) == 0:
            return {"delete": identifier}, identifier, None
        return deposit(identifier, [], {"oai_dc": fields}), identifier, fields

    def deposit(self, client, numbers):
        """Deposits the items of these numbers."""
        lines = [self.line(number) for number in numbers]
        status, said = client.post(self.name, body_of(line for line, _, _ in lines))
        answers = said.decode().splitlines()
        if status != 200 or len(answers) != len(lines) or not all(it.startswith("ok ") for it in answers):
            raise RuntimeError(f"a deposit into {self.name} is answered {status}: {said[:200]!r}")
        self.held |= {identifier: (answer[3:], fields) for (_, identifier, fields), answer in zip(lines, answers)}

    def wanted(self):
        """The list of its records."""
        return sorted((stamp, identifier, fields) for identifier, (stamp, fields) in self.held.items())


class Client:
    """A connection to nginx."""

    def __init__(self, port):
        self.connection = http.client.HTTPSConnection("127.0.0.1", port, timeout=120, context=TRUST)

    def exchange(self, method, target, body=None, fields=None):
        self.connection.request(method, target, body, fields or {})
        answer = self.connection.getresponse()
        return answer.status, answer.read()

    def post(self, name, body):
        return self.exchange("POST", f"/deposit/{name}", body, {"Authorization": bearer(KEY)[0]} if name == KEYED else {})

    def part(self, name, token=None):
        """A part of the list of all records, and its token."""
        asked = f"resumptionToken={token}" if token else "metadataPrefix=oai_dc"
        status, document = self.exchange("GET", f"/oai/{name}?verb=ListRecords&{asked}")
        if status != 200:
            raise RuntimeError(f"a list of {name} is answered {status}")
        root = ElementTree.fromstring(document)
        return [record_in(it) for it in root.iter(f"{{{OAI}}}record")], root.findtext(f".//{{{OAI}}}resumptionToken")

    def harvest(self, name, token=None):
        """The records of the list, or of the rest of it, and of how many parts it came."""
        found, token = self.part(name, token)
        parts = 1
        while token:
            more, token = self.part(name, token)
            found, parts = found + more, parts + 1
        return found, parts


def record_in(record):
    """The datestamp, the identifier and the fields of a record; None in the place of the fields of a deleted one."""
    header = record.find(f"{{{OAI}}}header")
    metadata = record.find(f"{{{OAI}}}metadata")
    fields = None if metadata is None else [[it.tag.rpartition("}")[2], it.text] for it in metadata[0]]
    return header.findtext(f"{{{OAI}}}datestamp"), header.findtext(f"{{{OAI}}}identifier"), fields


class Fleet:
    """Servers, from here to the end of the `with`, each with a configuration, a folder and, if it has keys, their file."""

    def __init__(self, folder, shares, keys=None):
        self.folder, self.shares, self.keys = pathlib.Path(folder), shares, keys or {}
        self.folder.mkdir()
        self.servers = [None] * len(shares)
        for at, names in enumerate(shares):
            write_configuration(self.config(at), configured(names))
            own = {name: digests for name, digests in self.keys.items() if name in names}
            (self.folder / f"{at}.keys").write_text(text_of(own))
        try:
            for at in range(len(shares)):
                self.start(at)
        except BaseException:
            self.__exit__()
            raise

    def __enter__(self):
        return self

    def __exit__(self, *_):
        for it in filter(None, self.servers):
            it.kill()

    def config(self, at):
        return self.folder / f"{at}.json"

    def start(self, at, port=0):
        behind = [str(self.folder / f"{at}.keys")]
        self.servers[at] = serve_durably(self.config(at), self.folder / str(at), port=port, behind=behind, errors=subprocess.DEVNULL)

    def arguments(self):
        """Those of scripts/shards."""
        return [f"{self.config(at)}={it.port}" for at, it in enumerate(self.servers)]

    def answered(self):
        """How many requests each server has answered."""
        return [sum(map(int, STATUS.findall(page_of(it)))) for it in self.servers]


def page_of(server):
    """The figures of a server, which do not count this."""
    connection = server.connect()
    connection.request("GET", "/status")
    page = connection.getresponse().read()
    connection.close()
    return page


@contextlib.contextmanager
def nginx_before(fleet, workers=1):
    """nginx by the lines of scripts/shards."""
    with tempfile.TemporaryDirectory() as place:
        done = called("--nginx", f"{place}/lines", "--repositories", f"{place}/repositories.json", *fleet.arguments())
        if done != (0, "", ""):
            raise RuntimeError(f"scripts/shards: {done}")
        with Proxy(place, None, [("192.0.2.17", "127.0.0.1")], pathlib.Path(place, "lines").read_text(), workers) as proxy:
            yield proxy


# ---- scripts/shards itself


def try_faults(trial, folder):
    """Configurations that do not fit each other, and arguments that are none: the status 2, one line, and nothing is written."""
    for name, made in {"a": configured(["a", "b"]), "b": configured(["c", "b"]), "c": configured(["c"]), "base": configured(["d"]) | {"base": "http://x"}}.items():
        write_configuration(folder / f"{name}.json", made)
    a, b, c, base = (folder / f"{name}.json" for name in ("a", "b", "c", "base"))
    texts = {"cut": "{", "list": "[]", "empty": "{}", "bytes": '{"base":"\udcff"}', "shape": '{"base":"http://x","repositories":[{"name":"a"}]}'}
    texts |= {f"name {it}": json.dumps(configured([it])) for it in ("", "A", "a b", "a;", "é", "x" * 33, "~a", "a\n")}
    for name, text in texts.items():
        (folder / f"{name}.json").write_bytes(text.encode(errors="surrogateescape"))
    site = folder / "site.conf"
    site.write_text((TOP / "web/nginx.conf").read_text().replace("proxy_pass http://oaihostd", "proxy_pass http://another"))
    faults = {
        (f"{a}=1", f"{b}=2"): f"repository b: {a} and {b} have it",
        (f"{a}=1", f"{a}=2"): f"repository a: {a} and {a} have it",
        (f"{a}=1", f"{c}=1"): f"port 1: {a} and {c} have it",
        (f"{a}=1", f"{base}=2"): f"base: {a} has http://host.example, and {base} has http://x",
        (f"{folder}/none=1",): f"{folder}/none: No such file or directory",
        (f"{folder}=1",): f"{folder}: Is a directory",
        (f"{a}=1", "--site", site): f"{site}: it has no line proxy_pass http://oaihostd;",
        (f"{a}=1", "--site", a): f"{a}: it has no upstream oaihostd with a server",
        (f"{a}=1", "--repositories", folder / "none/x"): f"{folder}/none/x.new: No such file or directory",
        (f"{a}=1", "--nginx", folder / "none/x"): f"{folder}/none/x.new: No such file or directory",
        **{(f"{a}=1", f"{folder}/{name}.json=2"): f"{folder}/{name}.json: it is no configuration: see what oaihostd check says" for name in texts if name != "bytes"},
        (f"{folder}/bytes.json=1",): f"{folder}/bytes.json: it is not in UTF-8",
    }
    written = ["--nginx", folder / "written.conf", "--repositories", folder / "written.json"]
    for arguments, said in faults.items():
        trial.check(f"shards {arguments}", called(*written, *arguments), (2, "", f"shards: {said}\n"))
    for argument in (f"{a}", f"{a}=", f"{a}=0", f"{a}=65536", f"{a}=x", f"{a}= 1", "=1"):
        status, out, said = called(argument, *written)
        trial.check(f"shards {argument}", (status, out, said.splitlines()[-1][-40:]), (2, "", " is no CONFIG=PORT, as archive.json=8480"))
    trial.check("shards without arguments", called()[:2], (2, ""))
    trial.check("what these have written", list(folder.glob("written.*")), [])


def try_site(trial, folder):
    """Lines of one's own stay as they are; many names, and one server."""
    site = folder / "site.conf"
    own = (TOP / "web/nginx.conf").read_text().replace("archive.example", "own.example").replace("server 127.0.0.1:8480", "server 127.0.0.1:9000 max_conns=8")
    site.write_text(own)
    status, lines, _ = called("--site", site, f"{folder}/a.json=8481", f"{folder}/c.json=8482")
    upstreams = re.findall(r"^upstream (\w+) \{\n +server ([^\n]+)\n +keepalive 16;", lines, re.MULTILINE)
    trial.check("the upstreams", (status, upstreams), (0, [("oaihostd_8481", "127.0.0.1:8481;"), ("oaihostd_8482", "127.0.0.1:8482;")]))
    left, rest = set(own.splitlines()), set(lines.splitlines())
    trial.check("lines of one server", sorted(it.strip() for it in left - rest), [
        "proxy_pass http://oaihostd;", "server 127.0.0.1:9000 max_conns=8;", "try_files /repositories.json /archive.json =404;", "upstream oaihostd {"])  # fmt: skip
    many = [[f"{at}-{number:03}-{'x' * 26}" for number in range(1000)] for at in range(SERVERS)]
    for at, names in enumerate(many):
        write_configuration(folder / f"many{at}.json", configured(names))
    _, lines, _ = called(*(f"{folder}/many{at}.json={8481 + at}" for at in range(SERVERS)))
    lines = lines.replace("listen 443 ssl", f"listen unix:{folder}/socket").replace("ssl_", "#")
    (folder / "many.conf").write_text(f"events {{}}\nhttp {{\n{lines}}}\n")
    done = subprocess.run(["nginx", "-t", "-q", "-p", folder, "-c", "many.conf", "-e", "stderr"], capture_output=True, text=True, check=False)
    trial.check("nginx with 4,000 repositories", (done.returncode, done.stderr), (0, ""))


# ---- several servers


def at_once(work, items):
    """Does the work for each of the items, all at once; what comes of each, in their order."""
    items = list(items)
    with concurrent.futures.ThreadPoolExecutor(len(items)) as pool:
        return list(pool.map(work, items))


class Archive:
    """Servers behind nginx, and what was deposited into their repositories."""

    def __init__(self, trial, fleet, proxy):
        self.trial, self.fleet, self.proxy = trial, fleet, proxy
        self.repositories = {name: Repository(name, SEED * 100 + at) for at, name in enumerate(NAMES)}

    def client(self):
        return Client(self.proxy.port)

    def load(self):
        """Deposits all items, into all repositories at once."""
        at_once(lambda it: it.deposit(self.client(), range(ITEMS)), self.repositories.values())

    def harvested(self, names, when):
        """Reads the lists of these repositories at once, each several times: they are whole, each record once, in order."""
        for name, (found, parts) in at_once(lambda name: (name, self.client().harvest(name)), [*names] * READERS):
            wanted = self.repositories[name].wanted()
            self.trial.expect(found == wanted, f"{when}: the list of {name} has {len(found)} records, and not the {len(wanted)} that were deposited, in order")
            self.trial.check(f"{when}: the parts of the list of {name}", parts, -(-len(wanted) // CHUNK))

    def beside_deposits(self, read, written):
        """Reads the lists of some, while others take deposits; how many items these took."""
        ended, before = threading.Event(), {it: len(self.repositories[it].held) for it in written}

        def write(name):
            its, client, count = self.repositories[name], self.client(), 0
            while not ended.is_set():
                its.deposit(client, random.Random(count).sample(range(ITEMS + 100), 10))
                count += 10
                time.sleep(0.02)
            return count

        with concurrent.futures.ThreadPoolExecutor(len(written)) as pool:
            running = [pool.submit(write, name) for name in written]
            self.harvested(read, "beside deposits")
            ended.set()
            counts = [it.result() for it in running]
        self.trial.expect(min(counts) > 0 and all(len(self.repositories[it].held) > before[it] for it in written), f"deposits beside harvests: {counts}")
        return sum(counts)

    def server_of(self, name):
        return next(at for at, names in enumerate(self.fleet.shares) if name in names)

    def identity(self, name):
        """The status of Identify, and the base URL and the name that it gives."""
        status, document = self.client().exchange("GET", f"/oai/{name}?verb=Identify")
        root = ElementTree.fromstring(document) if status == 200 else None
        return status, *(root is not None and root.findtext(f".//{{{OAI}}}{it}") for it in ("baseURL", "repositoryName"))

    def moved(self, work):
        """What the work comes to, and by how much the counts of requests of the servers have moved."""
        before = self.fleet.answered()
        done = work()
        return done, [now - then for now, then in zip(self.fleet.answered(), before)]

    def try_ways(self):
        """Each name reaches its own server, and no other; what has no repository reaches none."""
        for name in NAMES:
            own = [int(at == self.server_of(name)) for at in range(SERVERS)]
            wanted = 200, f"http://host.example/oai/{name}", f"Archive <{name}>"
            self.trial.check(f"Identify of {name}", self.moved(lambda name=name: self.identity(name)), (wanted, own))
            self.trial.check(f"a deposit into {name}", self.moved(lambda name=name: self.client().post(name, b"\n")[0]), (200, own))
        for name in UNKNOWN:
            for path in (f"/oai/{name}?verb=Identify", f"/deposit/{name}"):
                found = self.moved(lambda path=path: self.client().exchange("POST", path, b"\n")[0])
                self.trial.check(f"no repository: {path}", found, (404, [0] * SERVERS))

    def try_others(self):
        """The page, the list of the repositories, keys, and addresses that may not deposit."""
        self.trial.check("the page", self.client().exchange("GET", "/"), (200, (TOP / "web/index.html").read_bytes()))
        status, listed = self.client().exchange("GET", "/repositories.json")
        wanted = [{"name": name, "repositoryName": f"Archive <{name}>"} for names in self.fleet.shares for name in names]
        self.trial.check("the list of the repositories", (status, json.loads(listed)), (200, {"repositories": wanted}))
        self.trial.check("the figures", self.client().exchange("GET", "/status")[0], 404)
        for fields, wanted in (({}, 401), ({"Authorization": "Bearer on lists"}, 401), ({"Authorization": bearer(KEY)[0]}, 200)):
            self.trial.check(f"a deposit with {fields}", self.client().exchange("POST", f"/deposit/{KEYED}", b"\n", fields)[0], wanted)
        self.trial.check("a deposit from another address", answer_through(self.proxy, "/deposit/a", b"\n", "127.0.0.2")[0], 403)

    def try_down(self):
        """Each server in its turn is killed: its names are answered 502, and no others; lists that were begun go on once it is there again."""
        for at, server in enumerate(self.fleet.servers):
            begun = at_once(lambda name: (name, self.client().part(name)), self.fleet.shares[at])
            server.kill()
            for name, (status, *_) in at_once(lambda name: (name, self.identity(name)), NAMES):
                self.trial.check(f"{name} while server {at} is down", status, 502 if self.server_of(name) == at else 200)
            for name, (status, _) in at_once(lambda name: (name, self.client().post(name, b"\n")), NAMES):
                self.trial.check(f"a deposit into {name} while server {at} is down", status, 502 if self.server_of(name) == at else 200)
            self.trial.check(f"an unknown name while server {at} is down", self.client().exchange("GET", "/oai/none")[0], 404)
            self.harvested([it for it in NAMES if self.server_of(it) != at][:: SERVERS - 1], f"while server {at} is down")
            self.fleet.start(at, server.port)
            for name, (first, token) in begun:
                found = first + self.client().harvest(name, token)[0]
                self.trial.expect(found == self.repositories[name].wanted(), f"the list of {name}, begun before a kill, is another one")


def try_fleet(trial, folder):
    """Servers behind nginx."""
    shares = [NAMES[at::SERVERS] for at in range(SERVERS)]
    with Fleet(folder, shares, {KEYED: [digest_of(KEY)]}) as fleet, nginx_before(fleet) as proxy:
        archive = Archive(trial, fleet, proxy)
        archive.load()
        halves = NAMES[: len(NAMES) // 2], NAMES[len(NAMES) // 2 :]
        count = archive.beside_deposits(*halves) + archive.beside_deposits(*reversed(halves))
        archive.harvested(NAMES, "at last")
        archive.try_ways()
        archive.try_others()
        archive.try_down()
    print(f"{len(NAMES)} repositories of {ITEMS} items and more over {SERVERS} servers, {count} lines deposited beside harvests", flush=True)


# ---- what it costs


def measure(folder, shares, what):
    """GetRecord a second of four repositories, all at once: with nginx and without."""
    with Fleet(folder, shares) as fleet, nginx_before(fleet, workers=SERVERS) as proxy:
        archive = Archive(None, fleet, proxy)
        archive.load()
        names = NAMES[:SERVERS]
        ports = [fleet.servers[archive.server_of(name)].port for name in names]
        for way, scheme, reached in (("through nginx", "https", [proxy.port] * SERVERS), ("without nginx", "http", ports)):
            targets = (f"/oai/{name}?verb=GetRecord&metadataPrefix=oai_dc&identifier=oai:{name}:{ITEMS // 2:04}" for name in names)
            rates = at_once(lambda it: by_wrk(*it), [(port, target, 16, SECONDS, scheme) for port, target in zip(reached, targets)])
            each = ", ".join(f"{it:.0f}" for it in rates)
            print(f"{what}, {way}: {sum(rates):.0f} GetRecord a second ({each}), load {os.getloadavg()[0]:.1f}", flush=True)


def shards():
    """Shows that an archive of 40 repositories, spread over four servers behind nginx by scripts/shards, answers as it should.

    Configurations that do not fit each other; all lists at once through nginx, by their tokens to the end, each compared
    with what was deposited, while other repositories take deposits; that each name reaches its own server and no other,
    by the figures of the servers, and another name none; keys, the page and its list; and each server in its turn
    killed, while its names alone are answered 502, and started again. Then it prints GetRecord a second of four
    repositories at once, with 16 connections each by wrk, of four servers together and of one that has all 40; these it
    does not judge. Its last line is `N checked, M differ`, and its status is 0 where M is 0. ITEMS is how many items a
    repository is given at first, 300 if it is not set. Packages of Debian: apt-get install nginx-light openssl wrk
    """
    needs("nginx", "openssl", "wrk")
    trial = Trial()
    with tempfile.TemporaryDirectory(prefix="shards-") as place:
        folder = pathlib.Path(place)
        (folder / "faults").mkdir()
        try_faults(trial, folder / "faults")
        try_site(trial, folder / "faults")
        try:
            try_fleet(trial, folder / "fleet")
            measure(folder / "one", [NAMES], "one server")
            measure(folder / "four", [NAMES[at::SERVERS] for at in range(SERVERS)], "four servers")
        except RuntimeError as fault:
            trial.check("the trial goes on", str(fault), None)
    return trial.ended()
