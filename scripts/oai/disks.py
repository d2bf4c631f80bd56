"""Fills the file systems under what servers write."""

import http.client
import json
import os
import re
import subprocess
import tempfile
from typing import NamedTuple, Optional

from oai.clients import exchange, get
from oai.items import NAME, body_of, configuration, deposit
from oai.programs import EXAMPLE, TOP, needs, oaihost, oaihostd
from oai.servers import Server, serve_durably
from oai.trials import Trial

CACHES = [1, 64]

# How many bytes another file takes at first.
TAKEN = 200 * 1024

# How many letters a title has: an item fills most of a page.
LETTERS = 15_000

# More items than there is room for: of those that fill a page, and of a journal.
ITEMS = 40
JOURNAL_ITEMS = 200

IDENTIFIER = re.compile(rb"<identifier>([^<]*)</identifier>")


def on_small_disk(name, folder, size):
    """Runs the script itself once more, where a file system in memory of so many bytes is mounted on the folder, and no other program sees it: it is gone
    with the last process that does. The status."""
    inner = 'mount -t tmpfs -o size="$1" none "$2" && exec "$3" "$4" --within "$2"'
    mounted = ["unshare", "--mount", "--propagation", "private", "sh", "-c", inner, "-"]
    return subprocess.run([*mounted, size, folder, TOP / "scripts/run", name], check=False).returncode


# ---- the file of the pages


def identifier_of(number):
    return f"oai:host.example:{number:02}"


def item(number, letter):
    """The line of an item whose title is so many of that letter."""
    return deposit(identifier_of(number), [], {"oai_dc": [["title", letter * LETTERS]]})


class Reply(NamedTuple):
    """How a deposit is answered: the status, the lines that were done where it failed, and the lines that answer."""

    status: int
    done: Optional[str]
    lines: list


def reply_to(connection, lines):
    connection.request("POST", f"/deposit/{NAME}", body_of(lines))
    answer = connection.getresponse()
    said = answer.read().decode().splitlines()
    return Reply(answer.status, answer.headers["X-Lines-Done"], said)


class Deposits(Trial):
    """What is asked of one server, and how much of it is answered otherwise than it should be."""

    def __init__(self, cache, connection):
        super().__init__()
        self.cache, self.connection = cache, connection
        # The letter of each item that is there, by its number.
        self.letters = {}

    def expect(self, holds, what):
        super().expect(holds, f"a cache of {self.cache}, {what}")

    def deposit(self, number, letter):
        """Deposits an item; whether it is done. It may find no room, and then it has changed nothing."""
        reply = reply_to(self.connection, [item(number, letter)])
        is_done = reply.status == 200 and reply.lines[0].startswith("ok ")
        self.expect(is_done or reply == Reply(500, "0", []), f"a deposit of item {number} is answered {reply}")
        if is_done:
            self.letters[number] = letter
        return is_done

    def fill(self):
        """Deposits items until there is no room; the number of the one that is not there."""
        number = next((it for it in range(ITEMS) if not self.deposit(it, "a")), ITEMS)
        self.expect(3 < number < ITEMS, f"{number} items find room")
        return number

    def delete(self, number):
        reply = reply_to(self.connection, [{"delete": identifier_of(number)}])
        is_done = reply.status == 200 and reply.lines[0].startswith("ok ")
        self.expect(is_done or reply == Reply(500, "0", []), f"a deletion of item {number} is answered {reply}")
        if is_done:
            del self.letters[number]

    def look(self, when):
        """Asks for each item, for all, and for what is not there."""
        for number in range(ITEMS):
            status, document = get(self.connection, f"verb=GetRecord&metadataPrefix=oai_dc&identifier={identifier_of(number)}")
            letter = self.letters.get(number)
            shown = f"<dc:title>{letter * LETTERS}</dc:title>" if letter else 'code="idDoesNotExist"'
            self.expect(status == 200 and shown.encode() in document, f"{when}: item {number} is answered {status}, {document[:300]}")
        status, document = get(self.connection, "verb=ListIdentifiers&metadataPrefix=oai_dc")
        found = sorted(it.decode() for it in IDENTIFIER.findall(document))
        self.expect(status == 200 and found == [identifier_of(it) for it in sorted(self.letters)], f"{when}: the list is answered {status}, {found}")

    def several(self, number):
        """A message of a set, of which no page is made, and of an item that finds no room; the lines that are left."""
        lines = [{"set": "x", "name": "X"}, item(number, "b"), {"set": "y", "name": "Y"}]
        reply = reply_to(self.connection, lines)
        self.expect(reply == Reply(500, "1", []), f"a message of three lines is answered {reply}")
        status, document = get(self.connection, "verb=ListSets")
        self.expect(status == 200 and document.count(b"<setSpec>") == 1, f"the sets are answered {status}, {document}")
        return lines[1:]

    def run(self, other):
        missing = self.fill()
        self.look("full")
        others = [self.deposit(number, "c") for number in range(0, missing, 2)]
        print(f"a cache of {self.cache}: {missing} items find room, and then {sum(others)} of {len(others)} other states")
        self.look("full, behind other states")
        left = self.several(ITEMS - 1)
        self.delete(1)
        self.look("full, behind a deletion")
        os.unlink(other)
        reply = reply_to(self.connection, left)
        self.expect(reply.status == 200 and len(reply.lines) == 2 and all(it.startswith("ok ") for it in reply.lines), f"the rest is answered {reply}")
        self.letters[ITEMS - 1] = "b"
        self.expect(self.deposit(missing, "d"), "with room, an item finds none")
        self.look("with room")


def fill_pages(folder, cache):
    """Tries a server with a cache of so many pages, whose file stands in the folder beside another one."""
    other = f"{folder}/other"
    with open(other, "wb") as it:
        it.write(bytes(TAKEN))
    made = configuration(chunk=1_000, lifetime=60, lists=1, items=1_000) | {"cache": cache}
    made["repositories"][0]["deletedRecord"] = "no"
    with Server(made, f"{folder}/spill", durable=False) as server:
        connection = server.connect()
        trial = Deposits(cache, connection)
        trial.run(other)
        connection.close()
        trial.expect(server.process.poll() is None, "the server has ended")
    os.unlink(f"{folder}/spill")
    return trial


def full_disk(*, within=None):
    """Shows what a server does whose file of pages stands on a full file system.

    One in memory, of 400 kilobytes, is mounted where no other program sees it, half of it is taken by another file, and
    items are deposited until there is no room; with a cache of a page, and of 64. A deposit that finds no room is
    answered 500, with how many of its lines were done; what was stored before is answered as before, deposits of other
    states and deletions are answered 500 or done, and once the other file is gone the lines that were not done are
    deposited, and all is there. It names what is answered otherwise; the last line is `N answers, M differ`, and the
    status is 0 where M is 0. It needs root, to mount the file system. WITHIN is for its own use: the folder on which
    that is mounted.
    """
    needs("unshare", root=True)
    oaihost()
    if within is None:
        with tempfile.TemporaryDirectory() as folder:
            return on_small_disk("full-disk", folder, "400k")
    all_of_them = Trial()
    for cache in CACHES:
        trial = fill_pages(within, cache)
        all_of_them.checked, all_of_them.differ = all_of_them.checked + trial.checked, all_of_them.differ + trial.differ
    return all_of_them.ended("answers")


# ---- the journal


def start(folder):
    """A server on that folder, which may end."""
    return serve_durably(EXAMPLE, folder, errors=tempfile.TemporaryFile("w+"), may_end=True)


def ending(server):
    """The status and the last line of a server that ends."""
    status, said = server.ended()
    return status, said.splitlines()[-1]


def fill_journal(server):
    """Deposits items until an answer does not come; the identifiers of those that were acknowledged."""
    connection, acknowledged = server.connect(30), []
    for number in range(JOURNAL_ITEMS):
        identifier = f"oai:a:{number:03}"
        line = json.dumps(deposit(identifier, [], {"oai_dc": [["title", "t" * 5_000]]}))
        try:
            status, body = exchange(connection, "/deposit/a", line)
        except (OSError, http.client.HTTPException):
            return acknowledged
        if status == 200 and body.startswith("ok "):
            acknowledged.append(identifier)
    return acknowledged


def remount(folder, options):
    subprocess.run(["mount", "-o", f"remount,{options}", folder], check=True)


def try_commit(trial, folder, pages):
    """A journal that finds no room at a commit: the server ends, and a start with room has what was acknowledged."""
    os.mkdir(f"{folder}/archive")
    os.symlink(pages, f"{folder}/archive/pages")
    server = start(f"{folder}/archive")
    acknowledged = fill_journal(server)
    trial.check("a full disk at a commit", ending(server), (1, "journal: cannot write"))
    trial.check("some deposits are acknowledged before", 3 < len(acknowledged) < JOURNAL_ITEMS, True)
    remount(folder, "size=20m")
    with start(f"{folder}/archive") as server:
        connection = server.connect(30)
        for identifier in acknowledged:
            _, body = exchange(connection, f"/oai/a?verb=GetRecord&metadataPrefix=oai_dc&identifier={identifier}")
            trial.check(f"{identifier} behind a start with room", "<dc:title>" in body, True)


def fill(path):
    """Writes a file until there is no room."""
    try:
        with open(path, "wb", buffering=0) as it:
            for _ in range(30_000):
                it.write(bytes(1_000))
    except OSError:
        pass


def try_starts(trial, folder):
    """Folders in which nothing can be written."""
    fill(f"{folder}/other")
    status, line = ending(start(f"{folder}/new"))
    trial.check(f"a start on a full disk ({line})", (status, line in ("folder: cannot open", "journal: cannot write")), (1, True))
    os.unlink(f"{folder}/other")
    with start(f"{folder}/new") as server:
        trial.check("the same start with room", server.port is not None, True)
    remount(folder, "ro")
    trial.check("a folder that cannot be written", ending(start(f"{folder}/new")), (1, "folder: cannot open"))


def daemon_full_disk(*, within=None):
    """Shows what `oaihostd` does whose folder stands on a full file system, or on one that cannot be written.

    One in memory, of 200 kilobytes, is mounted where no other program sees it, and items are deposited until the
    journal finds no room. The server then ends, no answer that waited leaves, and a start with room has all that was
    acknowledged. A start that finds no room, or may not write, ends with what it should say. It names what differs; its
    last line is `N checked, M differ`, and its status is 0 where M is 0. It needs root, to mount the file system. WITHIN
    is for its own use: the folder on which that is mounted.
    """
    needs("unshare", root=True)
    oaihostd()
    if within is None:
        with tempfile.TemporaryDirectory() as folder:
            return on_small_disk("daemon-full-disk", folder, "200k")
    trial = Trial()
    with tempfile.NamedTemporaryFile() as pages:
        try_commit(trial, within, pages.name)
        try_starts(trial, within)
    return trial.ended()
