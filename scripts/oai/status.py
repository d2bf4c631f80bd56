"""Figures of a running server: that the page at /status is as Prometheus wants it, and that each figure moves by what it counts and by nothing else. What
is expected is written from docs/OPERATIONS.md and docs/PROTOCOL.md, and from what `oaihostd verify` says of the journal."""

import json
import os
import pathlib
import re
import subprocess
import tempfile
import time

from oai.items import configuration, deposit
from oai.keys import bearer, curl, digest_of, text_of
from oai.programs import needs, oaihostd
from oai.proxy import Proxy
from oai.servers import serve_durably, write_configuration
from oai.trials import Trial

TYPE = "text/plain; version=0.0.4"

FIGURE = re.compile(r'^oaihostd_(\w+(?:\{\w+="[^"]*"\})?) (\d+)$', re.MULTILINE)

# The figures, in the order of the page; those with a value for each repository or status are written with one of these.
PLAIN = "up start_time_seconds recovery_seconds recovered_records checkpoint_time_seconds checkpoint_bytes connections connections_total".split()
STATUSES = [200, 400, 401, 404, 405, 415, 500, 503]
BEHIND = "pages page_cache_hits_total page_cache_misses_total".split()

# What a page of the page file is long.
PAGE = 16_384

# The most seconds that a connection takes until it is counted, or no more.
PATIENCE = 30


def each(name):
    return [f'{name}{{repository="{it}"}}' for it in ("a", "b")]


def names():
    """The names on the page, in order."""
    requests = [f'requests_total{{status="{it}"}}' for it in STATUSES]
    journal = ["journal_records", "journal_bytes"]
    return [*PLAIN, *requests, *each("deposits_total"), *each("denied_total"), *journal, *each("items"), *each("open_lists"), *BEHIND]


class Watch:
    """A server of two repositories, `a` and `b`, of which `b` asks for a key; and the connection on which its figures are read."""

    def __init__(self, trial, folder):
        self.trial, self.folder = trial, folder
        (folder / "keys.json").write_text(text_of({"b": [digest_of("key")]}))
        self.errors = tempfile.TemporaryFile("w+")
        self.begun = time.time()
        self.server = serve_durably(folder / "config.json", folder / "archive", behind=[str(folder / "keys.json")], errors=self.errors)
        self.connection = self.server.connect()
        self.client = self.server.connect()
        self.send("GET", "/status?", 404)
        self.last = self.figures()

    def __enter__(self):
        return self

    def __exit__(self, *_):
        self.connection.close()
        self.client.close()
        self.server.kill()

    def page(self):
        self.connection.request("GET", "/status")
        answer = self.connection.getresponse()
        self.trial.check("the page's status and type", (answer.status, answer.headers["Content-Type"]), (200, TYPE))
        return answer.read().decode()

    def figures(self):
        return {name: int(value) for name, value in FIGURE.findall(self.page())}

    def send(self, method, target, wanted, body=b"", fields=None):
        """Sends a message on the connection of a client; its answer has that status."""
        self.client.putrequest(method, target)
        for name, value in {"Content-Length": str(len(body)), **(fields or {})}.items():
            self.client.putheader(name, value)
        self.client.endheaders(body)
        answer = self.client.getresponse()
        self.trial.check(f"{method} {target}", answer.status, wanted)
        return answer.headers, answer.read()

    def moved(self, what, besides=(), **moves):
        """Compares by how much each figure moved since the last time. The journal's are what `verify` says, those of `besides` may do what they want."""
        now = self.figures()
        found = {it: now[it] - self.last[it] for it in now if now[it] != self.last[it]}
        found = {it: by for it, by in found.items() if not it.startswith("journal_") and it not in besides}
        self.trial.check(f"figures that moved: {what}", found, {labelled(it): by for it, by in moves.items()})
        self.trial.check(f"the journal: {what}", (now["journal_records"], now["journal_bytes"]), self.verified())
        self.last = now
        return now

    def verified(self):
        return counted(called("verify", self.folder / "archive"))

    def settles(self, name, wanted):
        """Waits until a figure has that value."""
        end = time.monotonic() + PATIENCE
        while self.figures()[name] != wanted and time.monotonic() < end:
            time.sleep(0.1)


def labelled(name):
    """The name of a figure, from one that Python takes as that of an argument: `items_a`, `requests_200`."""
    kind, _, label = name.rpartition("_")
    if kind == "requests":
        return f'requests_total{{status="{label}"}}'
    return f'{kind}{{repository="{label}"}}' if label in ("a", "b") else name


def called(*arguments):
    return subprocess.run([oaihostd(), *map(str, arguments)], capture_output=True, text=True, timeout=600, check=True).stdout


def counted(said):
    """Records and bytes, from what is said of a journal."""
    return tuple(map(int, re.fullmatch(r"ok (\d+) (\d+)\n", said).groups()))


def line_of(name, number):
    return json.dumps(deposit(f"oai:{name}:{number}", [], {"oai_dc": [["title", "On Figures"]]})).encode()


def record(name):
    return f"/oai/{name}?verb=GetRecord&metadataPrefix=oai_dc&identifier=oai:{name}:1"


LIST = "/oai/a?verb=ListIdentifiers&metadataPrefix=oai_dc"


# ---- the page


def try_form(trial, watch):
    """The page as a text, and what other messages there are answered."""
    page = watch.page()
    trial.check("the names, in order", [name for name, _ in FIGURE.findall(page)], names())
    lines = [it for it in page.splitlines() if not it.startswith("#")]
    trial.check("lines that are no figure", [it for it in lines if not FIGURE.fullmatch(it)], [])
    done = subprocess.run(["promtool", "check", "metrics"], input=page, capture_output=True, text=True, check=False)
    trial.check("promtool", (done.returncode, done.stdout, done.stderr), (0, "", ""))
    watch.moved("the page alone")
    for method in ("POST", "PUT", "DELETE", "OPTIONS"):
        headers, body = watch.send(method, "/status", 405, b"x")
        trial.check(f"{method} /status", (headers["Allow"], body), ("GET", b""))
    watch.moved("other methods")
    for target in ("/status/", "/Status", "/status?x", "/%73tatus", "/oai/status"):
        watch.send("GET", target, 404)
    watch.moved("other targets", requests_404=5)


def try_start(trial, watch, records, checkpoint):
    """What the figures say of a start, after which nothing was counted but one message."""
    now = watch.last
    trial.check("up", now["up"], 1)
    trial.expect(watch.begun - 1 <= now["start_time_seconds"] <= time.time() + 1, f"it started at {now['start_time_seconds']}")
    trial.expect(now["recovery_seconds"] < PATIENCE, f"its recovery took {now['recovery_seconds']} s")
    trial.check("records", now["recovered_records"], records)
    trial.check("checkpoint", now["checkpoint_bytes"], checkpoint)
    trial.check("connections", (now["connections"], now["connections_total"]), (2, 2))
    counts = {it: by for it, by in now.items() if re.match("requests|deposits|denied", it) and by}
    trial.check("counts", counts, {'requests_total{status="404"}': 1})
    trial.check("the journal", (now["journal_records"], now["journal_bytes"]), watch.verified())


# ---- what moves a figure


def try_messages(watch):
    """Messages, each with the figures that it moves."""
    pages = BEHIND
    watch.send("POST", "/deposit/a", 200, line_of("a", 1))
    watch.moved("a deposit", pages, requests_200=1, deposits_total_a=1, items_a=1)
    watch.send("POST", "/deposit/a?x", 200, line_of("a", 1) + b"\n" + line_of("a", 2) + b"\n{}")
    watch.moved("a deposit of an item once more, one that is new, and one that is refused", pages, requests_200=1, deposits_total_a=1, items_a=1)
    watch.send("POST", "/deposit/a", 200, line_of("a", 1).replace(b'"deposit"', b'"put"'))
    watch.moved("a put of an item as it is", pages, requests_200=1, deposits_total_a=1)
    watch.send("POST", "/deposit/a", 200, b'{"delete":"oai:a:2"}')
    watch.moved("a deletion", pages, requests_200=1, deposits_total_a=1)
    watch.send("POST", "/deposit/b", 401, line_of("b", 1))
    watch.moved("a deposit without a key", requests_401=1, denied_total_b=1)
    watch.send("POST", "/deposit/b", 200, line_of("b", 1), {"Authorization": bearer("key")[0]})
    watch.moved("a deposit with a key", pages, requests_200=1, deposits_total_b=1, items_b=1)
    watch.send("GET", "/oai/a?verb=Identify", 200)
    watch.moved("Identify", requests_200=1)
    watch.send("GET", LIST, 200)
    watch.moved("a list", pages, requests_200=1, open_lists_a=1)
    watch.send("GET", LIST, 503)
    watch.moved("one list too many", pages, requests_503=1)
    for status, method, target in ((405, "PUT", "/oai/a"), (405, "GET", "/deposit/a"), (415, "POST", "/oai/a"), (404, "POST", "/deposit/c"), (400, "GET", "x")):
        watch.send(method, target, status, b"x")
        watch.moved(f"{method} {target}", **{f"requests_{status}": 1})


def try_pages(trial, watch):
    """Reads of pages, through a cache that has room for one of them."""
    in_use, hits, misses = BEHIND
    watch.send("GET", record("a"), 200)
    watch.moved("a record", BEHIND, requests_200=1)
    for number in range(3):
        before = watch.last
        watch.send("GET", record("a"), 200)
        now = watch.moved(f"the record once more: {number}", [hits], requests_200=1)
        trial.expect(now[hits] > before[hits], "the cache had the page")
    for name in "baba":
        before = watch.last
        watch.send("GET", record(name), 200)
        now = watch.moved(f"a record of {name}", [hits, misses], requests_200=1)
        trial.expect(now[misses] > before[misses], f"the cache did not have the page of {name}")
    size = os.path.getsize(watch.folder / "archive/pages")
    trial.expect(0 < watch.last[in_use] * PAGE <= size, f"{watch.last[in_use]} pages are in use, and the file has {size} bytes")


def try_connections(trial, watch):
    """Connections that are opened and closed, and messages that no figure counts."""
    others = [watch.server.connect() for _ in range(5)]
    for other in others:
        other.request("GET", "/oai/none")
        trial.check("a message on another connection", other.getresponse().read(), b"")
    watch.moved("five connections", connections=5, connections_total=5, requests_404=5)
    for other in others:
        other.close()
    watch.settles("connections", 2)
    watch.moved("their end", connections=-5)
    for fields in ({"Transfer-Encoding": "chunked"}, {"Content-Length": "9999999"}, {"Host": "x"}):
        other = watch.server.connect()
        other.putrequest("GET", "/oai/a", skip_host=True, skip_accept_encoding=True)
        for name, value in fields.items():
            other.putheader(name, value)
        other.putheader("Host", "localhost")
        other.endheaders()
        trial.expect(other.getresponse().status in (400, 413, 501), f"the head is refused: {fields}")
        other.close()
    watch.settles("connections", 2)
    watch.moved("heads that are refused", connections_total=3)


def try_broken_pages(watch):
    """A page file that was truncated, which is answered 500."""
    os.truncate(watch.folder / "archive/pages", 0)
    watch.send("GET", record("a"), 200)
    watch.moved("the cached page", BEHIND, requests_200=1)
    watch.send("GET", record("b"), 500)
    watch.moved("a page that is gone", BEHIND, requests_500=1)


# ---- starts


def try_restart(trial, watch, before):
    """What stays after a kill, and what begins anew."""
    stays = [it for it in before if re.match("items|open_lists|journal|checkpoint", it)]
    trial.check("what stays", {it: watch.last[it] for it in stays}, {it: before[it] for it in stays})


def try_checkpoint(trial, folder):
    """A checkpoint, and the start after it."""
    before = time.time()
    records, size = counted(called("checkpoint", folder / "config.json", folder / "archive"))
    with Watch(trial, folder) as watch:
        try_start(trial, watch, records, size)
        now = watch.last
        trial.expect(before - 1 <= now["checkpoint_time_seconds"] <= time.time(), f"the checkpoint is of {now['checkpoint_time_seconds']}")
        trial.check("what it has", [now[it] for it in (*each("items"), *each("open_lists"))], [2, 1, 0, 0])
        watch.send("POST", "/deposit/a", 200, line_of("a", 3))
        watch.moved("a deposit behind a checkpoint", BEHIND, requests_200=1, deposits_total_a=1, items_a=1)


def try_proxy(trial, watch):
    """nginx does not hand the page on."""
    with tempfile.TemporaryDirectory() as place:
        (pathlib.Path(place) / "archive.json").write_bytes((watch.folder / "config.json").read_bytes())
        with Proxy(place, watch.server.port, []) as proxy:
            trial.check("the proxy's answer", curl(proxy, "/status", source="127.0.0.1"), "404")
            watch.moved("a message to the proxy")


def status():
    """Shows the figures of a server of `oaihostd`: that each moves by what it counts, and by nothing else.

    The page at /status, its form by hand and by `promtool check metrics`; messages, reads of pages and connections, each
    with all figures before and after it; a page file that is truncated; a kill and a restart; a checkpoint; and nginx,
    which does not hand the page on. The figures of the journal are compared with `oaihostd verify`. Its last line is `N
    checked, M differ`, and its status is 0 where M is 0. Packages of Debian: apt-get install prometheus nginx-light
    openssl curl; the service `prometheus` need not run
    """
    needs("promtool", "nginx", "openssl", "curl")
    trial = Trial()
    with tempfile.TemporaryDirectory() as place:
        folder = pathlib.Path(place)
        made = configuration(chunk=1, lifetime=3600, lists=1, items=1000)
        made["cache"] = 1
        made["repositories"] = [made["repositories"][0] | {"name": name} for name in ("a", "b")]
        write_configuration(folder / "config.json", made)
        with Watch(trial, folder) as watch:
            try_start(trial, watch, 0, 0)
            trial.expect(abs(watch.last["checkpoint_time_seconds"] - watch.begun) < PATIENCE, "when the journal was begun")
            try_form(trial, watch)
            try_proxy(trial, watch)
            try_messages(watch)
            try_pages(trial, watch)
            try_connections(trial, watch)
            before, records = watch.figures(), watch.verified()[0]
        with Watch(trial, folder) as watch:
            try_start(trial, watch, records, 0)
            try_restart(trial, watch, before)
            watch.send("GET", record("a"), 200)
            watch.moved("a record after the restart", BEHIND, requests_200=1)
            try_broken_pages(watch)
        try_checkpoint(trial, folder)
    return trial.ended()
