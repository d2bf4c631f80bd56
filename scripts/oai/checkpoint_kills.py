"""Kills a checkpoint at each of its system calls."""

import json
import pathlib
import re
import shutil
import subprocess
import tempfile

from oai.clients import exchange
from oai.journal import Journal
from oai.kill import CONFIGURATION
from oai.programs import needs, oaihostd
from oai.servers import serve_durably, write_configuration

CALLS = "openat,write,pwrite64,ftruncate,fsync,fdatasync,rename,renameat,renameat2,unlink,unlinkat,close"
# A call in a trace: the process, the name, and the rest of the line.
CALL = re.compile(r"^(\d+) +(\w+)\((.*)$")
NAMES = [repository["name"] for repository in CONFIGURATION["repositories"]]
LINES = [
    *({"set": spec, "name": name} for spec, name in (("x", "X"), ("x:y", "X and Y"))),
    *({"deposit": f"oai:a:{n}", "sets": ["x:y"], "records": {"oai_dc": [["title", f"Title {n}"]]}} for n in range(8)),
    {"delete": "oai:a:3"},
]


def order_of(folder, calls):
    """Says where the calls come in another order than they should, up to the one that opens the journal once more."""
    new, old = f"{folder}/journal.new", f"{folder}/journal"
    syncs = ("fsync", "fdatasync")

    def last(names, text, before=len(calls)):
        places = [at for at, (name, rest) in enumerate(calls) if at < before and name in names and text in rest]
        return places[-1] if places else -1

    renamed = last(("rename", "renameat", "renameat2"), f'"{new}"')
    written = last(("write", "pwrite64", "ftruncate"), f"<{new}>")
    synced = last(syncs, f"<{new}>", renamed)
    opened = next((at for at, (_, rest) in enumerate(calls) if at > renamed and f'"{old}"' in rest), len(calls))
    kept = last(syncs, f"<{folder}>", opened)
    if not 0 <= written < synced < renamed < kept:
        yield f"written at {written}, synced at {synced}, renamed at {renamed}, the folder synced at {kept}"
    for name, rest in calls[:renamed]:
        if f'"{old}"' in rest and (name.startswith("unlink") or "O_TRUNC" in rest):
            yield f"the journal of before: {name}({rest}"


class Checkpoints:
    """A program, a folder with a journal, and what of it is compared."""

    def __init__(self, top):
        self.program, self.top = oaihostd(), top
        self.config, self.folder = f"{top}/config.json", f"{top}/base"
        self.kills = self.differences = 0
        write_configuration(self.config, CONFIGURATION)

    def differ(self, what):
        self.differences += 1
        print(what, flush=True)

    def fill(self):
        """Deposits and deletes at two repositories, and begins a list."""
        server = serve_durably(self.config, self.folder, errors=subprocess.DEVNULL)
        connection = server.connect()
        lines = "".join(json.dumps(line) + "\n" for line in LINES)
        for path, body in (
            ("/deposit/a", lines),
            ("/deposit/b", '{"deposit":"oai:b:1","sets":[],"records":{"oai_dc":[]}}'),
            ("/oai/a?verb=ListIdentifiers&metadataPrefix=oai_dc", None),
        ):
            status, answer = exchange(connection, path, body)
            if status != 200 or "refused" in answer:
                raise SystemExit(f"{path}: {status} {answer}")
        connection.close()
        server.kill()

    def run(self, *words, trace=()):
        """The status and the output of the program, under `strace` where that is asked for."""
        done = subprocess.run([*trace, self.program, *words], capture_output=True, timeout=120, check=False)
        return done.returncode, done.stdout.decode()

    def dumps(self, folder):
        """What each repository holds."""
        return [self.run("dump", folder, name) for name in NAMES]

    def copy(self, name):
        """A copy of the folder."""
        folder = f"{self.top}/{name}"
        shutil.rmtree(folder, ignore_errors=True)
        shutil.copytree(self.folder, folder)
        return folder

    def calls(self, folder):
        """The calls of a checkpoint there that ends by itself, as pairs of a name and the rest of the line."""
        path = f"{self.top}/trace"
        status, _ = self.run("checkpoint", self.config, folder, trace=["strace", "-f", "-y", "-e", f"trace={CALLS}", "-o", path])
        if status != 0:
            raise SystemExit(f"a checkpoint under strace ends with status {status}")
        with open(path, encoding="utf-8") as trace:
            found = [CALL.match(line) for line in trace]
        return [(call[2], call[3]) for call in found if call]

    def records(self, folder):
        """The records of the journal there, its first one apart, and how many bytes it has of them; None where it is none."""
        try:
            return (Journal(f"{folder}/journal").read_on() or [])[1:]
        except (OSError, ValueError):
            return None

    def kill_at(self, name, number, dumps, checkpoint):
        """Kills a checkpoint at that call. Whether the folder then has the journal of before."""
        what = f"{name} {number}"
        folder = self.copy("killed")
        before = pathlib.Path(f"{folder}/journal").read_bytes()
        inject = ["strace", "-f", "-qq", "-o", "/dev/null", "-e", f"trace={name}", "-e", f"inject={name}:signal=SIGKILL:when={number}"]
        status, _ = self.run("checkpoint", self.config, folder, trace=inject)
        self.kills += 1
        if status not in (-9, 137):
            self.differ(f"{what}: it was not killed, but ends with status {status}")
        is_old = pathlib.Path(f"{folder}/journal").read_bytes() == before
        if not is_old and self.records(folder) != checkpoint:
            self.differ(f"{what}: the journal is neither that of before nor the checkpoint")
        self.look_at(folder, what, dumps)
        status, _ = self.run("checkpoint", self.config, folder)
        if status != 0:
            self.differ(f"{what}: a second checkpoint ends with status {status}")
        if list(pathlib.Path(folder).glob("journal.new*")):
            self.differ(f"{what}: a second checkpoint leaves a new journal")
        self.look_at(folder, f"{what}, a second checkpoint", dumps)
        return is_old

    def look_at(self, folder, what, dumps):
        """Says where the journal is not whole, or something else is dumped."""
        status, said = self.run("verify", folder)
        if status != 0 or not said.startswith("ok "):
            self.differ(f"{what}: verify ends with status {status}")
        if self.dumps(folder) != dumps:
            self.differ(f"{what}: other lines are dumped")

    def kill_at_each(self):
        """Kills checkpoints at each call in turn, from the first that names the new journal on."""
        dumps = self.dumps(self.folder)
        whole = self.copy("whole")
        calls = self.calls(whole)
        for what in order_of(whole, calls):
            self.differ(what)
        checkpoint = self.records(whole)
        first = next(at for at, (_, rest) in enumerate(calls) if f'"{whole}/journal.new"' in rest)
        olds = []
        for at in range(first, len(calls)):
            name = calls[at][0]
            number = sum(1 for other, _ in calls[: at + 1] if other == name)
            olds.append(self.kill_at(name, number, dumps, checkpoint))
        if olds != sorted(olds, reverse=True) or all(olds) or not any(olds):
            self.differ(f"the checkpoint does not take the place of the journal once: {olds}")


def checkpoint_kills():
    """Kills a checkpoint at each of its system calls, and shows that it left the old journal or the new one.

    `oaihostd checkpoint` is killed at each system call in turn that it makes from the new journal's file on, and then
    the folder has the journal of before or the checkpoint, `verify` finds it whole, `dump` prints the lines of before,
    and a second `checkpoint` ends well. And by the calls of one that ends by itself: the new file is synced behind its
    last write, only then renamed, then the folder is synced, and the journal of before is never removed or emptied. It
    names what differs; its last line is `N kills, M differences`, and its status is 0 where M is 0. Packages of Debian:
    apt-get install strace
    """
    needs("strace")
    with tempfile.TemporaryDirectory() as top:
        checkpoints = Checkpoints(top)
        checkpoints.fill()
        checkpoints.kill_at_each()
    print(f"{checkpoints.kills} kills, {checkpoints.differences} differences")
    return 0 if checkpoints.kills and not checkpoints.differences else 1
