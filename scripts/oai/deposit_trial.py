"""Sends files with scripts/deposit, disturbs it, and compares what the server then holds."""

import json
import os
import pty
import random
import re
import resource
import subprocess
import sys
import tempfile
import threading
import time
import typing

from oai import trials
from oai.clients import exchange, token_of
from oai.exports import ABOUT, ELEMENT, LIMIT, SETS, Export, dumped
from oai.items import NAME, configuration, deposit, identifier_of
from oai.programs import TOP, needs, oaihostd
from oai.relay import FIELDS_END, LATER, REFUSED_TOKEN, Relay, answer_of, cut_answer, cut_request, drop_answer, read_message
from oai.servers import kilobytes_of, serve_durably, write_configuration

SEED = 99
ITEMS = int(os.environ.get("ITEMS", "100000"))

POST = b"POST "
BUSY = answer_of(b"503 Service Unavailable")
EXPIRED = 'code="badResumptionToken"'
HEADER = re.compile(r"<header( status=\"deleted\")?><identifier>([^<]*)</identifier><datestamp>([^<]*)")


class Archive:
    """A server of `oaihostd` on a folder of its own, which several threads may kill and start."""

    def __init__(self, folder, **limits):
        self.folder, self.port, self.server, self.kills, self.is_ended = folder, 0, None, 0, False
        self.lock = threading.Lock()
        os.makedirs(folder)
        made = configuration(**({"chunk": 1000, "lifetime": 3600, "lists": 1000, "items": ITEMS} | limits))
        others = {"passing": "transient", "forgetful": "no"}
        made["repositories"] += [made["repositories"][0] | {"name": name, "deletedRecord": kept} for name, kept in others.items()]
        write_configuration(f"{folder}/config.json", made)

    def __enter__(self):
        return self

    def __exit__(self, *_):
        self.is_ended = True
        self.kill()

    def start(self):
        """Starts it if it does not run, at the port that it had before."""
        with self.lock:
            if not self.server and not self.is_ended:
                self.server = serve_durably(f"{self.folder}/config.json", f"{self.folder}/archive", port=self.port, errors=subprocess.DEVNULL)
                self.port = self.server.port

    def kill(self):
        with self.lock:
            if self.server:
                self.server.kill()
                self.server, self.kills = None, self.kills + 1

    def ask(self, path, body=None):
        """What answers a request, once it is not 503, on a connection of its own."""
        while True:
            connection = self.server.connect()
            status, said = exchange(connection, path, body)
            connection.close()
            if status != 503:
                return status, said
            time.sleep(0.5)

    def post(self, *commands, name=NAME):
        """Deposits lines without scripts/deposit."""
        status, said = self.ask(f"/deposit/{name}", "".join(json.dumps(it) + "\n" for it in commands))
        if status != 200 or "refused" in said:
            raise SystemExit(f"a deposit was answered {status}: {said}")

    def headers(self, name=NAME):
        """Of each item whether it is deleted, and its datestamp. Where a token has expired, the list is begun anew."""
        found, first = {}, "verb=ListIdentifiers&metadataPrefix=oai_dc"
        query = first
        while query:
            _, document = self.ask(f"/oai/{name}?{query}")
            found |= {identifier: (bool(status), stamp) for status, identifier, stamp in HEADER.findall(document)}
            token = token_of(document.encode())
            query = first if EXPIRED in document else token and f"verb=ListIdentifiers&resumptionToken={token}"
        return found

    def dump(self, name=NAME):
        """The lines of a dump, as they are compared."""
        return (dumped(json.loads(it)) for it in self.dumped_lines(name))

    def dumped_lines(self, name=NAME):
        """The lines of a dump."""
        with subprocess.Popen([oaihostd(), "dump", f"{self.folder}/archive", name], stdout=subprocess.PIPE) as program:
            yield from (it.removesuffix(b"\n") for it in program.stdout)


class Kills(threading.Thread):
    """Kills a server at moments at random, and starts it again, some times before the end of the `with`."""

    MOST = 10

    def __init__(self, archive, chance):
        super().__init__()
        self.archive, self.chance, self.over = archive, chance, threading.Event()

    def __enter__(self):
        self.start()

    def __exit__(self, *_):
        self.over.set()
        self.join()
        self.archive.start()

    def run(self):
        for _ in range(self.MOST):
            if self.over.wait(self.chance.uniform(1, 6)):
                return
            self.archive.kill()
            self.archive.start()


class Watcher(Relay):
    """A relay that notes the body of each deposit, and whether its answer was handed on whole."""

    def __init__(self, archive):
        super().__init__(lambda: archive.port)
        self.posts = []

    def url(self, name=NAME):
        return f"http://127.0.0.1:{self.port}/deposit/{name}"

    def exchange(self, connection):
        request = read_message(connection)
        answer = b""
        try:
            answer = self.respond(request)
            connection.sendall(answer)
        finally:
            if request.startswith(POST):
                self.posts.append((request.partition(FIELDS_END)[2], is_whole(answer)))

    def answer(self, request):
        return super().answer(request.replace(b"\r\n", b"\r\nConnection: close\r\n", 1))

    def lengths(self):
        """How long the bodies were that came since this was asked last."""
        found, self.posts = [len(body) for body, _ in self.posts], []
        return found


def is_whole(answer):
    """Whether it is a 200 with all of its body."""
    head, _, body = answer.partition(FIELDS_END)
    length = re.search(rb"(?i)\r\ncontent-length: (\d+)", head)
    return answer.startswith(b"HTTP/1.1 200 ") and length is not None and len(body) == int(length[1])


# ---- cuts beside those in which the server is killed


def say(answer):
    """That is answered; nothing is handed on."""
    return lambda request, relay: answer


def hand_on(request, relay):
    """Nothing is cut."""
    return relay.answer(request)


def lose_lines(request, relay):
    """All is executed, and the answer ends with half of its lines."""
    head, end, body = relay.answer(request).partition(FIELDS_END)
    return head + end + body[: body.rfind(b"\n", 0, len(body) // 2) + 1]


def stall(seconds):
    """Nothing is answered for so long, and then what was executed."""

    def cut(request, relay):
        relay.answer(request)
        time.sleep(seconds)
        return b""

    return cut


def spread(cuts, messages):
    """What is done to so many messages, among which these cuts are spread."""
    places = [messages * number // (len(cuts) + 1) for number in range(len(cuts) + 1)]
    return [(POST, it) for cut, before, here in zip(cuts, places, places[1:]) for it in [hand_on] * (here - before) + [cut]]


# ---- a trial


class Trial(trials.Trial):
    """Runs of scripts/deposit, and the differences that were found."""

    def __init__(self, folder):
        super().__init__()
        self.folder, self.runs = folder, 0

    def file(self, *lines, end="\n"):
        """A file of these lines: commands, or bytes."""
        path = f"{self.folder}/file-{self.runs}.jsonl"
        with open(path, "wb") as it:
            it.write(b"\n".join(line if isinstance(line, bytes) else json.dumps(line).encode() for line in lines) + end.encode() * bool(lines))
        return path

    def deposit(self, what, *arguments, status=0, given=subprocess.DEVNULL):
        """Runs it without a terminal; what it printed on both streams."""
        begun = time.monotonic()
        command = [TOP / "scripts/deposit", *arguments]
        ran = subprocess.run(command, stdin=given, capture_output=True, text=True, start_new_session=True, check=False)
        self.ran(what, ran.returncode, status, begun, ran.stdout or ran.stderr)
        return ran.stdout, ran.stderr

    def deposit_at_terminal(self, what, typed, *arguments, status=0):
        """Runs it at a terminal of its own, at which that is typed; what the terminal showed."""
        begun = time.monotonic()
        child, terminal = pty.fork()
        if child == 0:
            os.execv(TOP / "scripts/deposit", ["scripts/deposit", *arguments])
        os.write(terminal, typed)
        seen = b""
        try:
            while more := os.read(terminal, 65536):
                seen += more
        except OSError:
            pass
        os.close(terminal)
        found = os.waitstatus_to_exitcode(os.waitpid(child, 0)[1])
        self.ran(what, found, status, begun, seen.decode())
        return seen.decode()

    def ran(self, what, found, status, begun, said):
        self.runs += 1
        print(f"{what}: {time.monotonic() - begun:.0f} s, status {found}: {said.strip().splitlines()[-1] if said.strip() else ''}", flush=True)
        self.check(f"{what}: the status", found, status)

    def contains(self, what, text, *parts):
        for it in parts:
            self.expect(it in text, f"{what}: nothing of {it!r} in {text[-1000:]!r}")


# ---- a load


def sent_again(posts, numbers):
    """The numbers of lines that were sent more than once."""
    at, is_again, found = 0, False, set()
    for body, is_done in posts:
        count = body.count(b"\n") + 1
        if is_again:
            found.update(numbers[at : at + count])
        is_again = not is_done
        at += count if is_done else 0
    return found


def compare_messages(trial, posts, path):
    """Each line was acknowledged once, in the order of the file, and what was not acknowledged was sent again from its first line on."""
    with open(path, "rb") as it:
        wanted = [line for line in it.read().split(b"\n") if line.strip() and len(line) <= LIMIT]
    acknowledged = [line for body, is_done in posts if is_done for line in body.split(b"\n")]
    trial.expect(acknowledged == wanted, "the lines that were acknowledged are not those of the file")
    trial.expect(max(len(body) for body, _ in posts) <= LIMIT, "a message is too long")
    for (body, is_done), (following, _) in zip(posts, posts[1:]):
        trial.expect(is_done or body.split(b"\n", 1)[0] == following.split(b"\n", 1)[0], "a message was not sent again from its first line on")


def compare_refusals(trial, export, printed, said, again):
    """What was refused was printed, each once, and the counts are those of the file. An item that does not exist cannot be deleted twice."""
    wanted = [f"line {number}: {words}" for number, words in export.refused.items() if number not in again or not words.startswith("refused 13 ")]
    found = [it for it in said.splitlines() if it.startswith("line ")]
    trial.check("how many were refused", len(found), len(wanted))
    for it in sorted(set(wanted) ^ set(found))[:10]:
        trial.expect(False, f"only {'printed' if it in found else 'wanted'}: {it}")
    counts = {name: int(count) for name, count in re.findall(r"([a-z ]+) (\d+)(?:, |\n)", printed)}
    trial.check("the count of those refused", counts.get("refused"), len(wanted))
    trial.check("the count of lines", sum(counts.values()), len(export.sent) + export.too_long)
    trial.expect(counts["executed before"] >= len(export.known) - len(again), f"too few lines were executed before: {counts}")


def compare_dumps(trial, wanted, found):
    """Compares two dumps, sorted, line by line."""
    paths = f"{trial.folder}/wanted", f"{trial.folder}/found"
    for path, lines in zip(paths, (wanted, found)):
        with open(path, "w", encoding="utf-8", newline="\n") as it:
            it.writelines(lines)
        subprocess.run(["sort", "-o", path, path], env=os.environ | {"LC_ALL": "C"}, check=True)
    said = subprocess.run(["comm", "-3", *paths], stdout=subprocess.PIPE, text=True, env=os.environ | {"LC_ALL": "C"}, check=True).stdout
    differing = said.splitlines()
    for line in differing[:5]:
        print(f"only in the {'dump' if line.startswith(chr(9)) else 'file'}: {line.strip()[:200]}", flush=True)
    trial.checked, trial.differ = trial.checked + 1, trial.differ + len(differing)
    with open(paths[1], "rb") as it:
        return sum(1 for _ in it)


def check_load(trial):
    """A file of ITEMS items, between whose messages the server is killed, and answers are lost."""
    path = f"{trial.folder}/export.jsonl"
    export = Export(path, random.Random(SEED), ITEMS)
    export.fill()
    with Archive(f"{trial.folder}/load") as archive:
        relay = Watcher(archive)
        kills = [make(archive, True) for make in (cut_request, cut_answer, drop_answer)]
        relay.cuts = spread([*kills, say(LATER), say(BUSY), say(b""), lose_lines, *kills], os.path.getsize(path) // LIMIT)
        threading.Timer(2, archive.start).start()
        begun = time.monotonic()
        with Kills(archive, random.Random(SEED)):
            printed, said = trial.deposit(f"{export.count} lines", path, relay.url(), status=1)
        seconds = time.monotonic() - begun
        trial.check("cuts that were not made", len(relay.cuts), 0)
        archive.kill()
        again = sent_again(relay.posts, export.sent)
        waits = said.count(": waits for ")
        compare_messages(trial, relay.posts, path)
        compare_refusals(trial, export, printed, said, again)
        lines = compare_dumps(trial, export.dump(), archive.dump())
        figures = f"{os.path.getsize(path)} bytes, {len(relay.posts)} messages, {waits} waits, {archive.kills} kills, {len(again)} lines sent again"
        print(f"    {figures}, {export.count / seconds:.0f} lines a second; a dump of {lines} lines is compared", flush=True)


# ---- puts


CHANGES, RESTORED, LEFT_OUT = 100, 20, 50


def check_again(trial):
    """A dump of ITEMS items is sent as puts, and again: what is held so keeps its datestamp."""
    export = Export(f"{trial.folder}/export.jsonl", random.Random(SEED), ITEMS)
    export.write_archive()
    with Archive(f"{trial.folder}/again") as archive:
        archive.start()
        relay = Watcher(archive)
        cuts = [drop_answer(archive, True), say(LATER), lose_lines]
        send_puts(trial, archive, relay, "an empty archive, and a kill", export.file.name, {}, *cuts)
        compare_dumps(trial, export.dump(), archive.dump())
        lines = list(archive.dumped_lines())
        send_puts(trial, archive, relay, "its dump", trial.file(*lines), archive.headers(), lose_lines)
        restored = {json.loads(it)["deposit"] for it in lines[-RESTORED:]}
        archive.post(*({"delete": it} for it in restored))
        names = change_lines(lines) | restored
        changed = trial.file(*lines)
        trial.check("how many are to change", len(names), CHANGES)
        before = send_puts(trial, archive, relay, f"{CHANGES} changes, and a kill", changed, archive.headers(), lose_lines, cut_answer(archive, True), names=names)
        compare_dumps(trial, (dumped(json.loads(it)) for it in lines), archive.dump())
        before = send_puts(trial, archive, relay, f"{CHANGES} changes again", changed, before)
        check_left_out(trial, archive, relay, lines, before)


def send_puts(trial, archive, relay, what, path, before, *cuts, names=()):
    """Sends a file as puts, in which just the items of these names have changed; where there were none before, all are new. The headers that stand then."""
    # (so that what changes has another datestamp)
    time.sleep(1.1)
    relay.posts, relay.cuts = [], spread(cuts, os.path.getsize(path) // LIMIT)
    begun = time.monotonic()
    printed, _ = trial.deposit(what, path, relay.url(), "--put")
    seconds = time.monotonic() - begun
    trial.check(f"{what}: cuts that were not made", len(relay.cuts), 0)
    trial.expect(not any(b'"deposit"' in body for body, _ in relay.posts), f"{what}: a line was sent as a deposit")
    count = sum(map(int, re.findall(r"\d+", printed)))
    after = archive.headers()
    stamped = {it for it in after if after[it] != before.get(it)}
    wanted = set(names) if before else set(after)
    trial.expect(stamped == wanted, f"{what}: other items have changed: {sorted(stamped ^ wanted)[:5]}")
    trial.check(f"{what}: how many items there are", len(after), ITEMS)
    print(f"    {count / seconds:.0f} lines a second; {len(stamped)} of {len(after)} datestamps are new", flush=True)
    return after


def change_lines(lines):
    """Changes so many items of a dump, whose sets stand first, each in one way. Gives their identifiers."""
    names = set()
    for number, at in enumerate(random.Random(SEED).sample(range(len(SETS), len(lines) - RESTORED), CHANGES - RESTORED)):
        line = json.loads(lines[at])
        change_of(number)(line)
        lines[at] = json.dumps(line).encode()
        names.add(line["deposit"])
    return names


def change_of(number):
    """A way in which a line changes: a field, the sets, the order of fields, a record that is new or has a field more, one that is an element, what is about
    a record."""
    ways = [
        lambda line: line["records"]["oai_dc"].append(["rights", "None"]),
        lambda line: line.update(sets=[] if line["sets"] else ["letters"]),
        lambda line: line["records"]["oai_dc"].reverse(),
        lambda line: line["records"].update(jnl=[["pages", "changed"]]),
        lambda line: line["records"].update(jnl=ELEMENT.replace("7", "8")),
        lambda line: line.update(about={"oai_dc": [ABOUT.replace("Free", "Closed")]}),
    ]
    return ways[number % len(ways)]


def check_left_out(trial, archive, relay, lines, before):
    """With --whole the items that the file does not name are deleted, and nothing else changes. A file of puts names its items too."""
    left_out = {json.loads(it)["deposit"] for it in lines[-LEFT_OUT:]}
    path = trial.file(*(it.replace(b'"deposit":', b'"put":', 1) for it in lines[:-LEFT_OUT]))
    relay.posts = []
    time.sleep(1.1)
    printed, _ = trial.deposit("all but some", path, relay.url(), "--put", "--whole", "--yes")
    trial.contains("all but some", printed, f"refused 0, deleted {LEFT_OUT}\n")
    after = archive.headers()
    trial.check("all but some: which have changed", {it for it in after if after[it] != before[it]}, left_out)
    trial.check("all but some: which are deleted", {it for it in after if after[it][0]}, left_out)


# What is sent of a line with --put: what is named is changed, and all else as it is.
SENT = {
    b'{"deposit":"oai:x:1","sets":[],"records":{"oai_dc":[["title","\\u00e9\\/"]]}}': '{"put":"oai:x:1","sets":[],"records":{"oai_dc":[["title","é/"]]}}'.encode(),
    b' { "records" : {"oai_dc":[]}, "sets":[], "deposit" : "oai:x:2" } ': b'{"records":{"oai_dc":[]},"sets":[],"put":"oai:x:2"}',
    b'{"deposit":1}': b'{"put":1}',
} | {
    it: it
    for it in [
        b'{"put":"oai:x:1","sets":[],"records":{"oai_dc":[]}}', b'{"put":"oai:x:1","deposit":"oai:x:1","sets":[],"records":{"oai_dc":[]}}', b'{"delete":"oai:x:1"}',
        b'{"set":"deposit","name":"deposit"}', b'{"deposit":', b'["deposit"]', b'"deposit"', b'{"deposit":"\xff"}', b'{"deposit":"\\ud800"}', b"[" * 5000,
        b'\xef\xbb\xbf{"deposit":"oai:x:1","sets":[],"records":{"oai_dc":[]}}',
    ]
}  # fmt: skip


def check_sent(trial):
    """What is sent of lines of each kind with --put."""
    with Archive(f"{trial.folder}/sent") as archive:
        archive.start()
        relay = Watcher(archive)
        trial.deposit("lines of each kind", trial.file(*SENT), relay.url(), "--put", status=1)
        trial.check("what was sent", relay.posts[0][0].split(b"\n"), list(SENT.values()))


def check_puts(trial):
    """What --put sends, and what it leaves as it is."""
    check_sent(trial)
    check_again(trial)


# ---- limits


def padded(number, length):
    """The line of an item that has so many bytes."""
    line = json.dumps(deposit(identifier_of(number), [], {"oai_dc": [["title", str(number)]]})).encode()
    return line + b" " * (length - len(line))


def is_refused(archive, body):
    """Whether a body is answered 413, or its connection ends before it is sent."""
    try:
        return archive.ask(f"/deposit/{NAME}", body)[0] == 413
    except ConnectionError:
        return True


def check_limits(trial):
    """Messages of exactly the limit, and of one byte more; files of nothing, of blank lines, without a line end, and on standard input."""
    with Archive(f"{trial.folder}/limits") as archive:
        archive.start()
        relay = Watcher(archive)
        trial.check("a body of the limit", archive.ask(f"/deposit/{NAME}", padded(0, LIMIT))[0], 200)
        trial.expect(is_refused(archive, padded(0, LIMIT + 1)), "a body of one byte more is not refused")
        trial.deposit("a line of the limit", trial.file(padded(1, LIMIT)), relay.url())
        trial.check("its messages", relay.lengths(), [LIMIT])
        _, said = trial.deposit("a line of one byte more", trial.file(padded(2, 200), padded(3, LIMIT + 1), padded(4, 200)), relay.url(), status=1)
        trial.check("its messages", relay.lengths(), [401])
        trial.contains("a line of one byte more", said, f"line 2: has {LIMIT + 1:,} bytes, more than {LIMIT:,}: it is not sent\n")
        trial.deposit("two lines of the limit", trial.file(padded(5, 1_000_000), padded(6, LIMIT - 1_000_001), end=""), relay.url())
        trial.check("its messages", relay.lengths(), [LIMIT])
        trial.deposit("two lines of one byte more", trial.file(padded(7, 1_000_000), padded(8, LIMIT - 1_000_000)), relay.url())
        trial.check("its messages", relay.lengths(), [1_000_000, LIMIT - 1_000_000])
        printed, _ = trial.deposit("nothing", trial.file(), relay.url())
        trial.check("nothing", printed, "ok 0, executed before 0, refused 0\n")
        trial.deposit("blank lines", trial.file(b"", b" \t", b"\r"), relay.url())
        trial.check("messages of nothing", relay.lengths(), [])
        with open(trial.file(b"", padded(9, 100) + b"\r", b"", padded(10, 100)), "rb") as given:
            printed, _ = trial.deposit("standard input", "-", relay.url(), given=given)
        trial.check("standard input", printed, "ok 2, executed before 0, refused 0\n")
        deposited = {identifier_of(number) for number in range(11)} - {identifier_of(3)}
        trial.check("what was deposited", set(archive.headers()), deposited)
        _, said = trial.deposit("a day that there is not", trial.file({"purge": "2024-02-30"}), relay.url("passing"), status=1)
        trial.check("a day that there is not", said, "line 1: refused 16 bad-date\n")
        trial.deposit("a day", trial.file({"purge": "2024-02-29"}), relay.url("passing"))


# ---- the whole


HELD, TOMBSTONES, NAMED = 300, 20, 240


def line_of(number, **records):
    return deposit(identifier_of(number), [], {"oai_dc": [["title", f"Title {number}"]]} | records)


def prepare(archive, name):
    """A repository of items, of which some are deleted, and some have records in another format."""
    archive.post(*({"set": spec, "name": title} for spec, title in SETS.items()), name=name)
    archive.post(*(line_of(number, **({"jnl": []} if number % 3 == 0 else {})) for number in range(HELD)), name=name)
    archive.post(*({"delete": identifier_of(number)} for number in range(TOMBSTONES)), name=name)


def check_held(trial, what, archive, name, before, deleted):
    """The repository holds what it held before, where it was not named or deleted now."""
    after = archive.headers(name)
    for identifier, (was_deleted, stamp) in before.items():
        if identifier in deleted:
            wanted = None if name == "forgetful" else True
            trial.check(f"{what}: {identifier} is deleted", after[identifier][0] if identifier in after else None, wanted)
        else:
            trial.check(f"{what}: {identifier} is as it was", after.get(identifier), (was_deleted, stamp))


def check_whole(trial):
    """What FILE does not name is deleted, once that is agreed."""
    for name, limits in (NAME, {}), ("passing", {"chunk": 7, "lists": 1, "lifetime": 1}), ("forgetful", {"chunk": 100}):
        with Archive(f"{trial.folder}/whole-{name}", **limits) as archive:
            archive.start()
            prepare(archive, name)
            check_whole_of(trial, archive, Watcher(archive), name)


def check_whole_of(trial, archive, relay, name):
    live = {identifier_of(number) for number in range(TOMBSTONES, HELD)}
    named = [line_of(number, **({"jnl": []} if number % 3 == 0 else {})) for number in range(TOMBSTONES + 10, NAMED)]
    # (a deletion names an item too, and so does one that was deleted before)
    known = [] if name == "forgetful" else [{"delete": identifier_of(1)}]
    lines = [{"set": "letters", "name": "Letters"}, *named, {"delete": identifier_of(HELD - 1)}, *known]
    missing = live - {it["deposit"] for it in named} - {identifier_of(HELD - 1)}
    first, arguments = f"{len(missing)} of {len(live) - 1} items are not in FILE", ["--whole", relay.url(name)]
    _, said = trial.deposit(f"{name}: nobody to ask", trial.file(*lines), *arguments, status=2)
    trial.contains("nobody to ask", said, first, "nothing is deleted without --yes")
    before, lines = archive.headers(name), [it for it in lines if it != {"delete": identifier_of(HELD - 1)}]
    stamps = {it: before[it] for it in before if it not in {line["deposit"] for line in named}}
    said = trial.deposit_at_terminal(f"{name}: no", b"n\n", trial.file(*lines), *arguments, status=1)
    trial.contains("no", said, first, "Delete them? [y/N] ")
    _, said = trial.deposit(f"{name}: a line is refused", trial.file(*lines, {"delete": "oai:x:1"}), *arguments, "--yes", status=1)
    trial.contains("a line is refused", said, "lines were refused: nothing is deleted")
    _, said = trial.deposit(f"{name}: no item is named", trial.file(), *arguments, "--yes", status=1)
    trial.contains("no item is named", said, "FILE names no item: nothing is deleted")
    check_held(trial, f"{name}: nothing is deleted", archive, name, stamps, [])
    relay.posts = []
    relay.cuts = [(POST, hand_on), (POST, drop_answer(archive, True)), (POST, lose_lines)]
    relay.cuts += [] if name == NAME else [(b"resumptionToken=", say(LATER)), (b"resumptionToken=", say(REFUSED_TOKEN))]
    said = trial.deposit_at_terminal(f"{name}: yes", b"y\n", trial.file(*lines), *arguments)
    trial.contains("yes", said, first, f"deleted {len(missing)}")
    trial.check(f"{name}: cuts that were not made", len(relay.cuts), 0)
    deletions = [sorted(json.loads(line)["delete"] for line in body.split(b"\n")) for body, _ in relay.posts[1:]]
    trial.expect(all(it == sorted(missing) for it in deletions), f"{name}: other deletions were sent than {len(missing)}: {[len(it) for it in deletions]}")
    check_held(trial, f"{name}: yes", archive, name, stamps, missing)
    printed, said = trial.deposit(f"{name}: yes again", trial.file(*lines), *arguments, "--yes")
    trial.contains("yes again", printed + said, f"0 of {len(live) - 1 - len(missing)} items are not in FILE", "deleted 0")


# ---- waits, and ends


def check_ends(trial):
    """What ends a run early, and what lets it wait."""
    with Archive(f"{trial.folder}/ends", items=10_000) as archive:
        relay = Watcher(archive)
        lines = [line_of(number) for number in range(100)]
        _, said = trial.deposit("no server", trial.file(*lines), relay.url(), "--tries", "3", status=3)
        trial.contains("no server", said, ": waits for 1 s\n", ": waits for 2 s\n", "gives up after 3 tries; line 1 is the first that was not acknowledged")
        archive.start()
        direct = f"http://127.0.0.1:{archive.port}/deposit"
        trial.deposit("wrong arguments", status=2)
        trial.deposit("no file", f"{trial.folder}/none", relay.url(), status=2)
        trial.deposit("a URL of no deposits", trial.file(*lines), relay.url().replace("deposit", "oai"), status=2)
        _, said = trial.deposit("no repository", trial.file(*lines), f"{direct}/nobody", status=1)
        trial.check("no repository", said, f"deposit: {direct}/nobody: 404 Not Found; line 1 is the first that was not acknowledged\n")
        check_answers(trial, relay, trial.file(*lines))
        check_memory(trial, archive, direct)


def check_answers(trial, relay, path):
    """Answers that are no answers, and how long is waited."""
    relay.cuts = [(POST, say(answer_of(b"500 Internal Server Error")))]
    _, said = trial.deposit("500", path, relay.url(), status=1)
    trial.contains("500", said, "500 Internal Server Error; line 1 is the first")
    relay.cuts = [(POST, say(answer_of(b"200 OK", b"", b"ok 2024-01-01T00:00:00Z\n")))]
    _, said = trial.deposit("an answer of one line", path, relay.url(), status=1)
    trial.contains("an answer of one line", said, "the answer is not one line for each line")
    relay.cuts = [(POST, say(it)) for it in (BUSY, BUSY, LATER, BUSY)]
    printed, said = trial.deposit("503", path, relay.url())
    waits = "503: waits for 1 s\n503: waits for 2 s\n503: waits for 1 s\n503: waits for 8 s\n"
    trial.check("503", (printed, said), ("ok 100, executed before 0, refused 0\n", waits))
    relay.cuts = [(POST, say(BUSY.replace(b"\r\n", b"\r\nRetry-After: 60\r\n", 1)))]
    _, said = trial.deposit("a minute", path, relay.url())
    trial.expect(re.search(r"\n100% 100/100 \[01:0\d<00:00, +[\d.]+ (lines/s|s/ lines)\]\n", said), f"a minute: no line of progress in {said!r}")
    relay.cuts = [(POST, stall(4))]
    _, said = trial.deposit("no answer", path, relay.url(), "--timeout", "2")
    trial.contains("no answer", said, "read timeout=2.0): waits for 1 s")
    said = trial.deposit_at_terminal("at a terminal", b"", path, relay.url())
    trial.contains("at a terminal", said, "100%", "100/100", "lines/s]", "ok 100, executed before 0, refused 0")


def check_memory(trial, archive, direct):
    """A server whose memory is full answers 503 or ends the connection, and goes on once it has more."""
    process = archive.server.process.pid
    limits = resource.prlimit(process, resource.RLIMIT_AS)
    resource.prlimit(process, resource.RLIMIT_AS, (kilobytes_of(process, "VmSize") * 1024, limits[1]))
    more = threading.Timer(5, resource.prlimit, [process, resource.RLIMIT_AS, limits])
    more.start()
    lines = [deposit(identifier_of(1_000 + number), [], {"oai_dc": [["title", "x" * 2_000]]}) for number in range(5_000)]
    printed, said = trial.deposit("memory is full", trial.file(*lines), f"{direct}/{NAME}")
    more.join()
    trial.check("memory is full", printed, "ok 5000, executed before 0, refused 0\n")
    trial.contains("memory is full", said, ": waits for ")
    print(f"    {'; '.join(said.splitlines())}", flush=True)
    archive.kill()
    wanted = [line_of(number) for number in range(100)] + lines
    compare_dumps(trial, map(dumped, wanted), archive.dump())


PARTS = {"load": check_load, "puts": check_puts, "limits": check_limits, "whole": check_whole, "ends": check_ends}


def deposit_trial(*parts: typing.Literal["load", "puts", "limits", "whole", "ends"]):
    """Shows that scripts/deposit sends a file of lines completely, whatever happens to the server and the connections.

    The server is one of `oaihostd`; between the two stands a relay, which cuts, and notes each message. The parts:
      load     ITEMS items and 10,000 sets, some of the items changed or deleted, or elements, and lines that are refused, of each kind. Meanwhile the server is killed
               at moments at random, when half of a message has come, when half of an answer is handed on, and when the answer is lost; it says 503;
               connections end early. Then each line was acknowledged once, in its order; what was refused was printed with its number, and nothing else;
               and a dump is, both sorted, what was to be deposited, line by line
      puts     --put: what is sent of lines of each kind; ITEMS items, their dump, and the dump with CHANGES changes, each sent twice, while the server is
               killed, and answers are lost. Just what differs has a new datestamp; with --whole besides what is missing
      limits   messages of exactly the limit, and of one byte more; files of nothing and of blank lines; standard input; purges
      whole    --whole: without a terminal, at one, after a refusal, without an item; deletions whose answers are lost; lists that have to wait. Just what
               is missing is deleted, and all other items keep their datestamps
      ends     what it says, and its status, if it gives up, has wrong arguments, or is answered another status; how long it waits; what it shows at a
               terminal and elsewhere; a server whose memory is full
    It ends with `N runs, M differences`; the status is 0 where M is 0. ITEMS is the number of items, 100000 if it is not set: at least 5000. Packages of
    Debian: apt-get install python3-tqdm python3-urllib3
    """
    needs("sort", "comm", python=["tqdm", "urllib3"])
    oaihostd()
    if ITEMS < 5000:
        sys.exit("deposit-trial: ITEMS is to be at least 5000")
    parts = parts or list(PARTS)
    with tempfile.TemporaryDirectory(prefix="deposit-trial-") as folder:
        trial = Trial(folder)
        for it in parts:
            PARTS[it](trial)
    print(f"deposit-trial: {' '.join(parts)}: {ITEMS} items: {trial.checked} checked, {trial.runs} runs, {trial.differ} differences")
    return int(trial.differ > 0)
