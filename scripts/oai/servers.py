"""Servers of the programs: how they are started and ended, and what they use of the machine."""

import http.client
import json
import os
import re
import subprocess
import tempfile
import time

from oai.items import NAME
from oai.programs import is_given, oaihost, oaihostd

LISTENING = re.compile(r"listening on 127\.0\.0\.1:(\d+)\n")

# More connections than any run makes: `oaihost serve` ends when it is told to.
CONNECTIONS = "1000000000"

# For how many seconds an answer is waited for.
PATIENCE = 600


def processor_of(process):
    """For how many seconds of a processor's time a process has worked."""
    with open(f"/proc/{process}/schedstat", encoding="ascii") as it:
        return int(it.read().split()[0]) / 1e9


def kilobytes_of(process, name):
    """A line of the memory of a process, in kilobytes: VmRSS is what it has, VmHWM the most that it has had."""
    with open(f"/proc/{process}/status", encoding="ascii") as lines:
        return next(int(line.split()[1]) for line in lines if line.startswith(f"{name}:"))


class Process:
    """A program that says where it listens, from its start to the end of the `with`. Its port is None where it ends without that, which has to be
    allowed; `errors` is what takes its standard error."""

    def __init__(self, command, errors=None, may_end=False, folder=None):
        self.errors, begun = errors, time.monotonic()
        self.process = subprocess.Popen(command, stdout=subprocess.PIPE, stderr=errors, cwd=folder, text=True)
        said = self.process.stdout.readline()
        self.seconds = time.monotonic() - begun
        found = LISTENING.fullmatch(said)
        self.port = found and int(found[1])
        if self.port is None and not may_end:
            self.kill()
            raise SystemExit(f"the server does not say where it listens, but: {said!r}")

    def __enter__(self):
        return self

    def __exit__(self, *_):
        self.kill()

    def kill(self):
        """Ends it at once."""
        self.process.kill()
        self.process.wait()
        self.process.stdout.close()

    def stop(self):
        """Ends it by SIGTERM, at which valgrind writes what it has counted."""
        self.process.terminate()
        self.process.wait()
        self.process.stdout.close()

    def said(self):
        """What it has written to standard error, where that is a file."""
        self.errors.seek(0)
        return self.errors.read()

    def ended(self, patience=30):
        """Its status and what it said on standard error, once it has ended by itself; it is killed where that takes longer."""
        try:
            self.process.wait(patience)
        except subprocess.TimeoutExpired:
            self.kill()
        return self.process.returncode, self.said()

    def connect(self, patience=PATIENCE):
        """A connection, which must be closed before `oaihost serve` serves another one."""
        return http.client.HTTPConnection("127.0.0.1", self.port, timeout=patience)

    def base(self):
        """Where the repository is reached."""
        return f"http://127.0.0.1:{self.port}/oai/{NAME}"

    def processor(self):
        """For how many seconds of a processor's time it has worked."""
        return processor_of(self.process.pid)

    def forget_memory(self):
        """From now on the most memory is counted anew (proc(5), clear_refs)."""
        with open(f"/proc/{self.process.pid}/clear_refs", "w", encoding="ascii") as it:
            it.write("5")

    def memory(self):
        """The memory that it has, in megabytes."""
        return kilobytes_of(self.process.pid, "VmRSS") / 1024

    def most_memory(self):
        """The most memory that it has had since that was counted anew, in megabytes."""
        return kilobytes_of(self.process.pid, "VmHWM") / 1024


def serve_durably(config, folder, front=(), port=0, behind=(), **others):
    """A server of `oaihostd` on the folder, perhaps below another program, and with more arguments."""
    return Process([*front, oaihostd(), "serve", str(config), str(port), str(folder), *behind], **others)


class Server(Process):
    """A server of a configuration, with its pages in that file, or in one of its own. It is one of `oaihostd` where that is said, or where it is not
    said and the environment names one: then it has its folder there. `front` gives, for a folder, a program that it runs below; `behind` are more arguments."""

    def __init__(self, configuration, place=None, durable=None, front=lambda folder: [], behind=()):
        self.folder = tempfile.TemporaryDirectory(prefix="oaihost-")
        self.place = place or f"{self.folder.name}/place"
        self.durable = is_given("oaihostd") if durable is None else durable
        path = f"{self.folder.name}/config.json"
        write_configuration(path, configuration)
        program = [oaihostd()] if self.durable else [oaihost()]
        count = [] if self.durable else [CONNECTIONS]
        super().__init__([*front(self.folder.name), *program, "serve", path, "0", self.place, *count, *behind])

    def kill(self):
        super().kill()
        self.folder.cleanup()

    def file_kilobytes(self):
        """How long the file of its pages is, in kilobytes."""
        return os.path.getsize(f"{self.place}/pages" if self.durable else self.place) / 1024


def write_configuration(path, configuration):
    """Writes a configuration into a file."""
    with open(path, "w", encoding="utf-8") as it:
        json.dump(configuration, it)
