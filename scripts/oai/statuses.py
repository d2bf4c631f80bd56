"""Shows with which statuses the programs end, and what they say on standard error."""

import os
import pathlib
import re
import shutil
import socket
import subprocess
import tempfile

from oai.clients import exchange
from oai.journal import set_version
from oai.programs import EXAMPLE, TOP, oaihost, oaihostd
from oai.servers import Process, serve_durably
from oai.trials import Trial

FIRST_STEPS = "examples/first-steps.txt"


class Called(Trial):
    """Calls a program, which may run for so many seconds, and compares how it ends. The status is 124 where it has to be ended."""

    def __init__(self, program, seconds):
        super().__init__()
        self.front = ["timeout", str(seconds), program]

    def call(self, arguments, given="/dev/null", output="/dev/null"):
        """The status of a call, and what it said on standard error. What it is given is a path, or text."""
        path, text = (given, None) if isinstance(given, str) else (None, given)
        source = os.open(path, os.O_RDONLY) if path else None
        with open(output, "wb") as sink:
            ran = subprocess.run([*self.front, *map(str, arguments)], stdin=source, input=text, stdout=sink, stderr=subprocess.PIPE, check=False)
        if path:
            os.close(source)
        return ran.returncode, ran.stderr.decode()

    def ended(self, what, status, said, *arguments, **streams):
        """Compares how a call ends. How far a start on a journal is, is passed over."""
        found, lines = self.call(arguments, **streams)
        kept = [it for it in lines.splitlines() if not it.startswith("recover")]
        self.check(what, (found, "\n".join(kept)), (status, said))

    def said(self, *arguments):
        """What a call writes to standard output."""
        return subprocess.run([*self.front, *map(str, arguments)], stdin=subprocess.DEVNULL, capture_output=True, text=True, check=False).stdout


def written(path, text):
    """The path, once the text is written there."""
    path.write_text(text, encoding="utf-8")
    return path


# ---- oaihost

HOST_USAGE = "usage: oaihost check CONFIG | ask CONFIG | trace CONFIG | serve CONFIG PORT SPILL CONNECTIONS"
HOST_UNKNOWN = [
    "", "ask", "check", "ask a b", "check a b", "asks a", "Ask a", "trace", "trace a b", "serve a", "serve a 1 b", "serve a 1 b 1 c", "ask a 1 b 1",
    "serve a 65536 b 1", "serve a +1 b 1", "serve a 1 b -1", "serve a 1 b 18446744073709551616", "serve a x b 1",
]  # fmt: skip


def try_inputs(trial, changed):
    """Inputs and outputs of `ask`, `check` and `trace`."""
    trial.ended("a whole input", 0, "", "ask", EXAMPLE, given=FIRST_STEPS)
    trial.ended("an empty input", 0, "", "ask", EXAMPLE)
    for arguments in HOST_UNKNOWN:
        trial.ended(f"the arguments '{arguments}'", 2, HOST_USAGE, *arguments.split())
    two_parts = b"1704067200 GET /oai/a?verb=Identify\n\n1704067200 GET\n"
    trial.ended("a line of two parts", 1, "line 3: bad exchange", "ask", EXAMPLE, given=two_parts)
    trial.ended("a moment that is none, without a line end", 1, "line 1: bad exchange", "ask", EXAMPLE, given=b"now GET /oai/a")
    trial.ended("an input that is a folder", 1, "input fault", "ask", EXAMPLE, given="/")
    trial.ended("an output that is full", 1, "output fault", "ask", EXAMPLE, given=FIRST_STEPS, output="/dev/full")
    trial.check("check", trial.said("check", EXAMPLE), "ok 3\n")
    first_lines = pathlib.Path(EXAMPLE).read_text(encoding="utf-8").splitlines()[:9]
    two = written(changed, "\n".join(first_lines).removesuffix(",") + "]}")
    trial.check("check of the first two repositories", trial.said("check", two), "ok 2\n")
    trial.ended("a piece of one digit", 1, "line 1: bad piece", "trace", EXAMPLE, given=b"1704067200 1 4\n")
    many = "".join(f"1704067200 {label} 47\n" for label in range(1, 1026)).encode()
    trial.ended("a connection more than may be open", 1, "line 1025: too many connections", "trace", EXAMPLE, given=many)
    trial.ended("an output of check that is full", 1, "output fault", "check", EXAMPLE, output="/dev/full")


def try_configurations(trial, changed):
    """Configurations that are none."""
    text = pathlib.Path(EXAMPLE).read_text(encoding="utf-8")
    no_chunk = text.replace('"chunk":2', '"chunk":0')
    for command in ("check", "ask", "trace"):
        for path in ("examples/none.json", "examples"):
            trial.ended(f"{command} of {path}", 2, "config: cannot read", command, path)
        trial.ended(f"{command} of a chunk of 0", 2, "config: 7 BadNumber", command, written(changed, no_chunk))
        two_names = written(changed, no_chunk.replace('"name":"theses"', '"name":"a"'))
        trial.ended(f"{command} of two names and a chunk of 0", 2, "config: 4 DuplicateName", command, two_names)


def try_spill(trial, folder):
    """The file of the pages: it is created, and emptied where it is there, once the configuration was read, and before the port is taken."""
    spill, none = folder / "spill", folder / "none.json"
    for there in ("", "other bytes"):
        if there:
            spill.write_text(there)
        trial.check("serve says where it listens", trial.said("serve", EXAMPLE, 0, spill, 0).rstrip("0123456789\n"), "listening on 127.0.0.1:")
        trial.check(f"a file of pages that had '{there}'", spill.stat().st_size, 0)
    for path in (folder, folder / "none/spill"):
        trial.ended(f"pages in {path}", 1, "device fault", "serve", EXAMPLE, 0, path, 1)
    spill.write_text("other bytes")
    trial.ended("a port that is none, and a configuration that is none", 2, HOST_USAGE, "serve", none, "x", spill, 1)
    trial.ended("a configuration that is none, and pages in a folder", 2, "config: cannot read", "serve", none, 0, folder, 1)
    trial.ended("a configuration that is none", 2, "config: cannot read", "serve", none, 0, spill, 1)
    trial.check("a configuration that is none", spill.stat().st_size, 11)


def serve(spill, connections):
    """A server that ends behind so many connections."""
    return Process([oaihost(), "serve", EXAMPLE, "0", str(spill), str(connections)], errors=tempfile.TemporaryFile("w+"))


def answered(trial, server, request, what, status):
    """A request on a connection of its own is answered with that status line."""
    try:
        with socket.create_connection(("127.0.0.1", server.port), timeout=20) as client:
            client.sendall(request.encode())
            found = client.makefile("rb").readline().decode()
    except OSError as fault:
        found = str(fault)
    trial.check(what, found, f"HTTP/1.1 {status}\r\n")


def deposit_of(name, line):
    return f"POST /deposit/{name} HTTP/1.0\r\nContent-Length: {len(line)}\r\n\r\n{line}"


def try_ports(trial, folder):
    """Two servers with two files, and two more that would take the port of one of them. The first serves two connections, one after the other."""
    one, spill = serve(folder / "one", 2), folder / "spill"
    trial.ended("a port that is taken", 1, "socket fault", "serve", EXAMPLE, one.port, spill, 1)
    trial.check("a port that is taken", spill.stat().st_size, 0)
    trial.ended("a port that is taken, and pages in a folder", 1, "device fault", "serve", EXAMPLE, one.port, folder, 1)
    two = serve(folder / "two", 1)
    answered(trial, two, deposit_of("theses", '{"set":"x","name":"X"}'), "a deposit at the second server", "200 OK")
    trial.check("a second server that has served its connection", two.ended(60), (0, ""))
    for connection in ("first", "second"):
        answered(trial, one, "GET /oai/none HTTP/1.0\r\n\r\n", f"the {connection} connection of a server", "404 Not Found")
    trial.check("a server that has served its connections", one.ended(60), (0, ""))


def try_cut(trial, folder):
    """Another program cuts the file of a server, which has one page in its cache: what it cannot read is answered 500, and it goes on."""
    server, letters = serve(folder / "cut", 5), "t" * 15_000
    for number in (1, 2):
        line = f'{{"deposit":"oai:a:{number}","sets":[],"records":{{"oai_dc":[["title","{letters}"]]}}}}'
        answered(trial, server, deposit_of("a", line), f"deposit {number} of a page", "200 OK")
    trial.check("two pages that are named, and one that was", (folder / "cut").stat().st_size, 49_152)
    os.truncate(folder / "cut", 100)
    record = "GET /oai/a?verb=GetRecord&metadataPrefix=oai_dc&identifier=oai:a:"
    answered(trial, server, f"{record}1 HTTP/1.0\r\n\r\n", "a record of a file that was cut", "500 Internal Server Error")
    answered(trial, server, f"{record}2 HTTP/1.0\r\n\r\n", "a record of the cache", "200 OK")
    answered(trial, server, "GET /oai/a?verb=Identify HTTP/1.0\r\n\r\n", "Identify over a file that was cut", "200 OK")
    trial.check("a server whose file was cut", server.ended(60), (0, ""))


def exit_statuses():
    """Shows that `oaihost` ends with the status that it should, and says on standard error what it should.

    After a whole input, at arguments that it does not know, at a configuration that is none, at a line that tells
    nothing, where its input or its output fails, where the file of a server's pages cannot be emptied, and where a
    server cannot listen. And that the file is emptied once the configuration is read, and that a server of whose file
    another program cuts a part goes on. It names each case that differs; its status is 0 where none does.
    """
    trial = Called(oaihost(), 20)
    with tempfile.TemporaryDirectory() as place:
        folder = pathlib.Path(place)
        try_inputs(trial, folder / "changed")
        try_spill(trial, folder)
        try_ports(trial, folder)
        try_cut(trial, folder)
        try_configurations(trial, folder / "changed")
    if trial.differ == 0:
        print("each status and message is the one wanted")
    return int(trial.differ > 0)


# ---- oaihostd

# What is said first of arguments that are none.
MISSING = "error: the following required arguments were not provided:"
NO_PORT = "error: PORT is no number from 0 to 65535"
DAEMON_UNKNOWN = {
    "": "error: 'oaihostd' requires a subcommand but one was not provided",
    "serve": MISSING, "serve a": MISSING, "serve a 1": MISSING, "verify": MISSING, "dump a": MISSING, "checkpoint a": MISSING,
    "check": MISSING, "keys": MISSING, "keys a": MISSING, "keys a b c": "error: unexpected argument 'c' found",
    "serve a 1 b c d": "error: unexpected argument 'd' found", "verify a b": "error: unexpected argument 'b' found",
    "dump a b c": "error: unexpected argument 'c' found", "check a b c": "error: unexpected argument 'c' found",
    "verify a --quiet": "error: unexpected argument '--quiet' found", "--all": "error: unexpected argument '--all' found",
    "Serve a 1 b": "error: unrecognized subcommand 'Serve'", "backup a": "error: unrecognized subcommand 'backup'",
    "serve a 65536 b": NO_PORT, "serve a +1 b": NO_PORT, "serve a x b": NO_PORT, "serve a 1.5 b": NO_PORT,
    "serve --listen localhost a 1 b": "error: the ADDRESS of --listen is no IP address",
    "serve --listen 127.0.0.1:80 a 1 b": "error: the ADDRESS of --listen is no IP address",
    "serve a 1 b --listen": "error: a value is required for '--listen <ADDRESS>' but none was supplied",
}  # fmt: skip
COMMANDS = ("serve", "check", "keys", "verify", "dump", "checkpoint", "xml")
MANUAL = "packaging/man/oaihostd.8"
LINE = '{"deposit":"oai:a:1","sets":[],"records":{"oai_dc":[["title","On Sets"]]}}'
DUMPED = '{"deposit":"oai:a:1","records":{"oai_dc":[["title","On Sets"]]},"sets":[]}\n'


def synopsis_of(help_text, command):
    """The synopsis of a command, by its help: its options but for --help, then its arguments."""
    usage = next(line for line in help_text.splitlines() if line.startswith(f"Usage: oaihostd {command} "))
    arguments = [it.strip("<>") for it in usage.split()[3:] if it != "[OPTIONS]"]
    options = re.findall(r"^ +--(\S+)(?: <(\S+)>)?", help_text, re.MULTILINE)
    return " ".join([f"oaihostd {command}", *(f"[--{name} {value}]" if value else f"[--{name}]" for name, value in options), *arguments])


def manual_synopsis():
    """The lines of the manual's synopsis."""
    text = (TOP / MANUAL).read_text(encoding="utf-8").replace("\\-", "-")
    part = text[text.index(".SH SYNOPSIS\n") + len(".SH SYNOPSIS\n") : text.index(".SH DESCRIPTION")]
    words = [re.sub(r" *([][]) *", r"\1", line.split(" ", 1)[1]) if " " in line else "\n" for line in part.splitlines()]
    return [line.strip().replace("]CONFIG", "] CONFIG") for line in " ".join(words).replace("[ ", "[").split("\n")]


def try_help(trial):
    """The help of the program and of each command, its manual page, and its version."""
    found = trial.said("--help")
    for command in COMMANDS:
        trial.expect(re.search(rf"^  {command} +[A-Z]", found, re.MULTILINE), f"oaihostd --help does not name {command}")
    trial.expect("\nExample: oaihostd serve archive.json 8480 archive\n" in found, "oaihostd --help has no example")
    trial.ended("oaihostd --help", 0, "", "--help")
    synopses = []
    for command in COMMANDS:
        found = trial.said(command, "--help")
        trial.ended(f"oaihostd {command} --help", 0, "", command, "--help")
        trial.check(f"-h of {command}", trial.said(command, "-h"), found)
        trial.expect(f"\nExample: oaihostd {command} " in found, f"oaihostd {command} --help has no example")
        synopses.append(synopsis_of(found, command))
    trial.check("the synopsis of the manual", manual_synopsis(), [*synopses, "oaihostd [COMMAND] --help", "oaihostd --version"])
    trial.check("oaihostd --version", trial.said("--version"), "oaihostd (journal version 2)\n")
    trial.ended("oaihostd --version", 0, "", "--version")
    trial.ended("an output of --help that is full", 1, "output fault", "--help", output="/dev/full")


def try_beginnings(trial, folder):
    """Arguments that are unknown, configurations that are none, and folders that cannot be opened."""
    for arguments, wanted in DAEMON_UNKNOWN.items():
        status, lines = trial.call(arguments.split())
        trial.check(f"oaihostd {arguments}", (status, lines.split("\n")[0]), (2, wanted))
        trial.expect("\nUsage: oaihostd" in lines or "value is required" in wanted, f"oaihostd {arguments} has no usage")
    trial.ended("no configuration", 2, "config: cannot read", "serve", folder / "none", 0, folder / "new")
    bad = written(folder / "bad.json", "{\n")
    said = "config: 1 BadJson: line 2, column 1: the text ends too early"
    trial.ended("a configuration that is none", 2, said, "serve", bad, 0, folder / "new")
    trial.ended("a checkpoint with a configuration that is none", 2, said, "checkpoint", bad, folder / "new")
    trial.check("a folder for a configuration that is none", (folder / "new").exists(), False)
    file = written(folder / "file", "")
    trial.ended("a folder that is a file", 1, "folder: cannot open", "serve", EXAMPLE, 0, file)
    trial.ended("a folder below one that is not there", 1, "folder: cannot open", "serve", EXAMPLE, 0, folder / "a/b")
    trial.ended("no folder to verify", 1, "folder: cannot open", "verify", folder / "none")


def try_beside(trial, folder):
    """What is called beside a server; its archive is then killed, and is good."""
    good = folder / "good"
    with serve_durably(EXAMPLE, good, errors=subprocess.DEVNULL) as server:
        connection = server.connect()
        exchange(connection, "/deposit/a", LINE)
        exchange(connection, "/deposit/a", LINE)
        trial.ended("a second server", 1, "folder: in use", "serve", EXAMPLE, 0, good)
        trial.ended("a port that is taken", 1, "socket fault", "serve", EXAMPLE, server.port, folder / "other")
        trial.ended("verify beside a server", 0, "", "verify", good)
    warning = "warning: 0.0.0.0 is no loopback address: whoever reaches it can change the archive"
    trial.ended("another address, with a warning", 124, warning, "serve", "--listen", "0.0.0.0", "--quiet", EXAMPLE, 0, folder / "all")
    trial.check("a quiet server", trial.call(["serve", "--quiet", EXAMPLE, 0, folder / "quiet"]), (124, ""))
    trial.ended("a loopback address", 124, "", "serve", "--listen", "127.0.0.2", EXAMPLE, 0, folder / "two")
    trial.ended("an address of another machine", 1, f"{warning.replace('0.0.0.0', '192.0.2.1')}\nsocket fault", "serve", "--listen", "192.0.2.1", EXAMPLE, 0,
                folder / "three")  # fmt: skip


def try_configs(trial, folder):
    """Configurations that differ from that of the journal."""
    good, kept, text = folder / "good", folder / "kept", pathlib.Path(EXAMPLE).read_text(encoding="utf-8")
    shutil.copytree(good, kept)
    changed = lambda name, old, new: written(folder / f"{name}.json", text.replace(old, new, 1))
    deleted = changed("deleted", '"persistent"', '"transient"')
    trial.ended("another deletedRecord", 2, "config: differs from the journal: repository a: deletedRecord", "serve", deleted, 0, kept)
    name, differs = changed("name", '"name":"a"', '"name":"z"'), "config: differs from the journal: repository a: name"
    trial.ended("a repository that is missing", 2, differs, "serve", name, 0, kept)
    trial.ended("a checkpoint without a repository", 2, differs, "checkpoint", name, kept)
    trial.check("the journal behind a configuration that differs", (kept / "journal").read_bytes() == (good / "journal").read_bytes(), True)
    title = changed("title", "Archive", "Library")
    trial.ended("another name for people", 124, "config: another one: the open lists have ended", "serve", title, 0, kept)
    trial.ended("a checkpoint", 0, "", "checkpoint", title, kept)
    trial.check("a quiet checkpoint", trial.call(["checkpoint", "--quiet", title, kept]), (0, ""))
    trial.ended("a checkpoint of nothing", 1, "folder: cannot open", "checkpoint", EXAMPLE, folder / "nothing")
    trial.ended("a dump of no repository", 2, "dump: no such repository", "dump", kept, "nobody")
    trial.ended("a dump", 0, "", "dump", kept, "a")
    trial.check("the lines of a dump", trial.said("dump", kept, "a"), DUMPED)


def changed_journal(folder, name, at, byte):
    """A folder whose journal has another byte at that place, counted from its end where it is negative."""
    other = folder / name
    shutil.copytree(folder / "good", other)
    data = bytearray((other / "journal").read_bytes())
    data[at] = ord(byte)
    (other / "journal").write_bytes(data)
    return other


def try_damages(trial, folder):
    """A journal with a changed byte before its end: neither `serve` nor `verify` takes it, and neither changes it."""
    data = (folder / "good/journal").read_bytes()
    second = data.index(b" deposit a ")
    begins = second - 11
    damages = {
        "the first commit byte closed": (0, "-", 0), "a byte of the first head": (1, "x", 0), "a moment": (second - 1, "x", begins),
        "a kind": (second + 1, "x", begins), "a length": (second + 11, "x", begins), "a byte of a body": (second + 40, "x", begins),
        "a commit byte before another group closed": (begins, "-", begins),
    }  # fmt: skip
    for what, (at, byte, place) in damages.items():
        other = changed_journal(folder, what, at, byte)
        before, said = (other / "journal").read_bytes(), f"journal: damaged at byte {place}"
        trial.ended(f"{what}, served", 1, said, "serve", EXAMPLE, 0, other)
        trial.ended(f"{what}, verified", 1, said, "verify", other)
        trial.check(f"{what}: the journal", (other / "journal").read_bytes() == before, True)


def try_versions(trial, folder):
    """A journal of the version before, which a checkpoint replaces, and one of a version to come."""
    old, later = folder / "version-1", folder / "version-3"
    for other, version in ((old, 1), (later, 3)):
        shutil.copytree(folder / "good", other)
        set_version(other / "journal", version)
    trial.ended("version 1, verified", 0, "", "verify", old)
    trial.check("version 1: the lines of a dump", trial.said("dump", old, "a"), DUMPED)
    trial.ended("version 1", 124, "journal: of version 1: no elements until a checkpoint", "serve", EXAMPLE, 0, old)
    trial.ended("version 1: a checkpoint", 0, "", "checkpoint", EXAMPLE, old)
    trial.ended("version 2", 124, "", "serve", EXAMPLE, 0, old)
    trial.check("version 2: the lines of a dump", trial.said("dump", old, "a"), DUMPED)
    trial.ended("version 3", 1, "journal: of version 3", "serve", EXAMPLE, 0, later)
    trial.ended("version 3: a dump", 1, "journal: of version 3", "dump", later, "a")


def try_ends(trial, folder):
    """Journals that end otherwise, and a start that was cut off before there was one."""
    last = changed_journal(folder, "last", -1, "x")
    trial.ended("another byte than the gate at the end, served", 124, "", "serve", EXAMPLE, 0, last)
    cut = changed_journal(folder, "cut", -1, "-")
    os.truncate(cut / "journal", (folder / "good/journal").stat().st_size - 30)
    _, said = trial.call(["verify", cut])
    trial.expect(said.startswith("journal: damaged at byte "), f"a journal that was cut, verified: {said!r}")
    trial.ended("a journal that was cut", 1, said.rstrip("\n"), "serve", EXAMPLE, 0, cut)
    begun = folder / "begun"
    begun.mkdir()
    (begun / "journal.new").write_bytes(b"+17")
    (begun / "pages").write_bytes(bytes(1_000_000))
    trial.ended("a start that was cut off", 124, "", "serve", EXAMPLE, 0, begun)
    trial.check("the pages of before were emptied", (begun / "pages").stat().st_size < 1_000_000, True)
    trial.check("journal.new is gone", (begun / "journal.new").exists(), False)


def daemon_statuses():
    """Shows that `oaihostd` ends with the status that it should, and says on standard error what it should.

    That its help has the arguments of the manual's synopsis, and its version that of the journal. And that it changes
    nothing that it does not go on with: at arguments that it does not know, at a configuration that
    is none or differs from the journal's, at a dump of no repository, at a folder that is a file, cannot be made or is
    in use, at a port that is taken, and at a journal of another program, of another version, or with a changed byte in
    its first frame, in a head, a body, a length or a gate. And that a start which was cut off before it had a journal
    is made again. It names each case that differs; its status is 0 where none does.
    """
    trial = Called(oaihostd(), 5)
    with tempfile.TemporaryDirectory() as place:
        folder = pathlib.Path(place)
        try_help(trial)
        for step in (try_beginnings, try_beside, try_configs, try_damages, try_versions, try_ends):
            step(trial, folder)
    if trial.differ == 0:
        print("daemon-statuses: none differs")
    return int(trial.differ > 0)
