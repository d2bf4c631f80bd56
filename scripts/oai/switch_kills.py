"""Kills a server at each of its system calls while it writes a checkpoint, and lets each of them fail."""

import http.client
import json
import os
import re
import subprocess
import tempfile

from oai.checkpoint_kills import CALL, order_of
from oai.clients import exchange
from oai.kill import CONFIGURATION
from oai.programs import needs, oaihostd
from oai.servers import serve_durably, write_configuration

CALLS = ("openat", "pread64", "pwrite64", "ftruncate", "fsync", "fdatasync", "rename", "unlink", "close")
# By how many bytes the journal is longer than twice what it was, where a checkpoint begins.
AFTER = 1_000
# How many items are there before a list begins, and how many messages are sent at most until a checkpoint has taken the place of the journal.
FIRST, MOST = 8, 60
HEADER = re.compile(r"<header><identifier>([^<]*)</identifier><datestamp>([^<]*)</datestamp>")
TOKEN = re.compile(r"<resumptionToken[^>]*>(\d+\.\d+)</resumptionToken>")
# For how many seconds an answer is waited for.
PATIENCE = 60


class Life:
    """A server on a folder, one client of it, and what this was told."""

    def __init__(self, config, folder):
        self.config, self.folder = config, folder
        self.stamps, self.listed, self.tokens, self.wanted = {}, [], [], []

    def start(self, front=()):
        behind = ("--checkpoint-after", str(AFTER))
        return serve_durably(self.config, self.folder, front=front, behind=behind, errors=tempfile.TemporaryFile("w+"), may_end=True)

    def deposit(self, connection, number):
        """Deposits an item, and notes its datestamp."""
        identifier = f"oai:a:{number:03}"
        line = {"deposit": identifier, "sets": [], "records": {"oai_dc": [["title", "t" * 200]]}}
        status, said = exchange(connection, "/deposit/a", json.dumps(line))
        if status == 200 and said.startswith("ok "):
            self.stamps[identifier] = said.split()[1]

    def ask(self, connection, query):
        """Asks for a part of the list, and notes what it has and the token of the next one; whether there is a next one."""
        status, body = exchange(connection, f"/oai/a?verb=ListIdentifiers&{query}")
        if status != 200:
            return False
        found = TOKEN.search(body)
        self.listed.append(HEADER.findall(body))
        self.tokens.append(found and found[1])
        return bool(found)

    def begin(self, connection):
        """Deposits the first items, and begins a list of them."""
        for number in range(FIRST):
            self.deposit(connection, number)
        self.wanted = sorted(self.stamps.items(), key=lambda it: (it[1], it[0]))
        self.ask(connection, "metadataPrefix=oai_dc")

    def live(self, server):
        """Deposits until a checkpoint has taken the place of the journal, and asks for the second part of the list behind it. Whether one has."""
        connection, journal = server.connect(PATIENCE), f"{self.folder}/journal"
        try:
            self.begin(connection)
            before, replaced = os.stat(journal).st_ino, False
            for number in range(FIRST, MOST):
                self.deposit(connection, number)
                replaced = replaced or os.stat(journal).st_ino != before
                if replaced and not os.path.exists(f"{journal}.new"):
                    break
            if self.tokens:
                self.ask(connection, f"resumptionToken={self.tokens[0]}")
            self.deposit(connection, MOST)
            return replaced
        except (OSError, http.client.HTTPException):
            return False
        finally:
            connection.close()

    def differences(self, connection):
        """What a server, started anew on the folder, answers otherwise than the client was told."""
        for identifier, stamp in self.stamps.items():
            _, body = exchange(connection, f"/oai/a?verb=GetRecord&metadataPrefix=oai_dc&identifier={identifier}")
            if f"<datestamp>{stamp}</datestamp>" not in body:
                yield f"{identifier} of {stamp}, which was acknowledged"
        given, tokens, self.listed = self.listed, self.tokens, []
        if not tokens:
            return
        self.listed, self.tokens = given[:1], tokens[:1]
        for _ in range(FIRST):
            if not self.tokens[-1] or not self.ask(connection, f"resumptionToken={self.tokens[-1]}"):
                break
        if self.listed[: len(given)] != given:
            yield "a part of the list that was given before"
        if [it for part in self.listed for it in part] != self.wanted:
            yield f"the list: {self.listed}"


class Switches:
    """What is tried, and what of it differs."""

    def __init__(self, top):
        self.top, self.config = top, f"{top}/config.json"
        self.tried = self.differences = self.number = 0
        write_configuration(self.config, CONFIGURATION)

    def differ(self, what):
        self.differences += 1
        print(what, flush=True)

    def life(self):
        self.number += 1
        return Life(self.config, f"{self.top}/{self.number}")

    def calls(self):
        """The calls of a server that is left in peace, as pairs of a name and the rest of the line; and the place of the one that creates its journal."""
        life, path = self.life(), f"{self.top}/trace"
        server = life.start(front=["strace", "-f", "-y", "-e", f"trace={','.join(CALLS)}", "-o", path])
        replaced = life.live(server)
        self.end(server)
        if not replaced:
            raise SystemExit("no checkpoint took the place of the journal")
        self.look_at(life, "a server that is left in peace")
        with open(path, encoding="utf-8") as trace:
            calls = [(it[2], it[3]) for it in map(CALL.match, trace) if it]
        for what in order_of(life.folder, calls):
            self.differ(what)
        return calls, next(at for at, (_, rest) in enumerate(calls) if f"{life.folder}/journal.new" in rest and "O_CREAT" in rest)

    def end(self, server):
        """Kills the server, which runs below strace."""
        subprocess.run(["pkill", "-KILL", "-P", str(server.process.pid)], check=False)
        server.kill()

    def look_at(self, life, what):
        """Says what another server on the folder does not have."""
        server = life.start()
        if server.port is None:
            self.differ(f"{what}: no start: {server.said()!r}")
            return
        connection = server.connect(PATIENCE)
        for it in life.differences(connection):
            self.differ(f"{what}: another server has not {it}")
        connection.close()
        server.kill()
        if any(it.startswith("journal.new") for it in os.listdir(life.folder)):
            self.differ(f"{what}: the start left a new journal")

    def attempt(self, name, number, how):
        """A server of which that call is its last, or fails."""
        what = f"{name} {number}, {how}"
        life = self.life()
        inject = ["strace", "-f", "-qq", "-o", "/dev/null", "-e", f"trace={name}", "-e", f"inject={name}:{how}:when={number}"]
        server = life.start(front=inject)
        life.live(server)
        self.end(server)
        self.tried += 1
        self.look_at(life, what)

    def attempt_each(self):
        calls, first = self.calls()
        for at in range(first, len(calls)):
            name = calls[at][0]
            number = sum(1 for other, _ in calls[: at + 1] if other == name)
            self.attempt(name, number, "signal=SIGKILL")
            if name != "close":
                self.attempt(name, number, "error=EIO")


def switch_kills():
    """Kills a server at each of its system calls while it writes a checkpoint, and lets each of them fail.

    A client deposits items, begins a list, and deposits more until a checkpoint has taken the place of the journal; then
    it asks for the second part of the list, and deposits once more. From where it creates its journal the server is
    killed at each system call that it makes on files, in turn; and each of these fails, with EIO, but for `close`.
    Behind each another server has each item that was acknowledged, with its datestamp, the parts of the list that were
    given, and all others up to its end; and no new journal is left. And of a server that is left in peace: the new file
    is synced behind its last write, only then renamed, then the folder is synced, and the journal of before is never
    removed or emptied. It names what differs; its last line is `N tried, M differences`, and its status is 0 where M is
    0. Packages of Debian: apt-get install strace procps
    """
    needs("strace", "pkill")
    oaihostd()
    with tempfile.TemporaryDirectory(prefix="switch-") as top:
        switches = Switches(top)
        switches.attempt_each()
    print(f"{switches.tried} tried, {switches.differences} differences")
    return 0 if switches.tried and not switches.differences else 1
