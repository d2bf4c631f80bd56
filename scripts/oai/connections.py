"""Measures servers beside many connections."""

import json
import os
import re
import resource
import statistics
import subprocess
import tempfile
import threading
import time

from oai.clients import Client, open_socket, read_answer, request_of
from oai.items import LISTED, NAME, bodies_of, configuration, identifier_of, item
from oai.programs import needs
from oai.servers import Process, Server


def by_wrk(port, target, clients, seconds, scheme="http"):
    """Answers a second, where each of the clients asks again once it is answered."""
    return answers_and_waits(port, target, clients, seconds, scheme)[0]


def answers_and_waits(port, target, clients, seconds, scheme="http"):
    """The same, and how long an answer took: at the median, at the 99th of 100, and at most, as wrk writes it."""
    threads = "1" if clients == 1 else "2"
    command = ["wrk", "--latency", f"-t{threads}", f"-c{clients}", f"-d{seconds}", f"{scheme}://127.0.0.1:{port}{target}"]
    said = subprocess.run(command, capture_output=True, text=True, check=True).stdout
    waits = [re.search(rf"^ +{it}\s+(\S+)", said, re.MULTILINE)[1] for it in ("50%", "99%", r"Latency\s+\S+\s+\S+")]
    return float(re.search(r"Requests/sec:\s+([\d.]+)", said)[1]), waits


class Others:
    """So many connections that send nothing, or a byte a second, from here to the end of the `with`."""

    def __init__(self, port, count, slow):
        self.clients = [open_socket(port) for _ in range(count)]
        self.ended = threading.Event()
        self.thread = threading.Thread(target=self.send if slow else self.ended.wait)

    def __enter__(self):
        self.thread.start()
        time.sleep(1)
        return self

    def __exit__(self, *_):
        self.ended.set()
        self.thread.join()
        for it in self.clients:
            it.close()

    def send(self):
        """A head that never ends."""
        for byte in b"GET /oai/" + b"a" * 1_000:
            for it in self.clients:
                it.send(bytes([byte]))
            if self.ended.wait(1):
                return


# ---- one server


def answer_time(port, target):
    """The seconds of one answer on a connection of its own."""
    begun = time.monotonic()
    with open_socket(port) as client:
        client.sendall(request_of(target))
        read_answer(client)
    return time.monotonic() - begun


def times_for(port, target, seconds):
    """The seconds of answers, one after the other, for so long."""
    end = time.monotonic() + seconds
    while time.monotonic() < end:
        yield answer_time(port, target)
        time.sleep(0.02)


def stalled(server, requests, clients):
    """By how many megabytes memory grows where so many clients send these requests each and read nothing, for five seconds."""
    before, held = server.memory(), []
    for _ in range(clients):
        held.append(open_socket(server.port))
        held[-1].setblocking(False)
        try:
            held[-1].send(requests)
        except BlockingIOError:
            pass
    peak = max(watched(server) for _ in range(50))
    for client in held:
        client.close()
    return max(peak, before) - before


def watched(server):
    time.sleep(0.1)
    return server.memory()


def deposit_file(server, path):
    """Deposits the lines of a file at the target `/deposit/a`, 500 a message; how many they were."""
    with open(path, "rb") as file:
        lines = file.read().splitlines(keepends=True)
    connection = server.connect()
    for at in range(0, len(lines), 500):
        connection.request("POST", "/deposit/a", b"".join(lines[at : at + 500]))
        connection.getresponse().read()
    connection.close()
    return len(lines)


def serving(program, config, target, *lines):
    """Measures a server of many connections.

    These are the processor time of a deposited line, requests a second with 1, 64 and 512 clients by wrk, an answer
    beside idle clients and slow ones, and the memory that clients which read nothing make it hold. `PROGRAM CONFIG PORT
    PLACE` serves and says `listening on 127.0.0.1:<port>`; PROGRAM may have a word behind it, as
    `crates/oaihostd/out/oaihostd serve`; PLACE is the path of a file or a folder that is not there yet. TARGET is what
    is asked, as `/oai/a?verb=Identify`; LINES are files of deposit lines for the repository `a`. It prints a line of
    figures for each measurement, and judges nothing.
    """
    needs("wrk")
    allow_files(8_192)
    with tempfile.TemporaryDirectory(prefix="serving-") as folder, Process([*program.split(" "), config, "0", f"{folder}/place"]) as server:
        for path in lines:
            before = server.processor()
            count = deposit_file(server, path)
            print(f"{count} lines deposited: {(server.processor() - before) / count * 1e6:.1f} us of a processor each", flush=True)
        print(f"load {os.getloadavg()[0]:.1f}, memory {server.memory():.1f} MB", flush=True)
        for clients in (1, 64, 512):
            print(f"{clients} clients: {by_wrk(server.port, target, clients, 5):.0f} answers a second", flush=True)
        for clients, name in ((1, "1 idle client"), (1_000, "1,000 idle clients")):
            with Others(server.port, clients, slow=False):
                print(f"beside {name}: {max(answer_time(server.port, target) for _ in range(20)) * 1000:.1f} ms at most", flush=True)
        with Others(server.port, 1_000, slow=True):
            times = list(times_for(server.port, target, 10))
        print(f"beside 1,000 clients at a byte a second: {statistics.median(times) * 1000:.2f} ms, {max(times) * 1000:.1f} ms at most", flush=True)
        for ending, name in ((b"\r\n", "CR LF"), (b"\n", "LF")):
            print(f"1 client, 800 requests with {name}, reads nothing: {stalled(server, request_of(target, ending) * 800, 1):.1f} MB", flush=True)
        print(f"1,020 clients, one request each, read nothing: {stalled(server, request_of(target), 1_020):.1f} MB", flush=True)


def allow_files(count):
    """Lets this process, and those that it starts, open so many files, as far as they may."""
    _, most = resource.getrlimit(resource.RLIMIT_NOFILE)
    resource.setrlimit(resource.RLIMIT_NOFILE, (min(count, most), most))


# ---- `oaihostd` beside `oaihost`

ITEMS = int(os.environ.get("ITEMS", "20000"))
RUNS = int(os.environ.get("RUNS", "5"))
SECONDS = 3
MADE = configuration(chunk=1_000, lifetime=1_000_000, lists=10_000, items=1_000_000)
GET_RECORD = f"/oai/{NAME}?verb=GetRecord&{LISTED}&identifier={identifier_of(ITEMS // 2)}"
LIST_RECORDS = f"/oai/{NAME}?verb=ListRecords&{LISTED}"


def load(server):
    """Deposits all items; how many microseconds of a processor a line took."""
    before, client = server.processor(), Client(server)
    client.post(bodies_of(item(it) for it in range(ITEMS)))
    client.connection.close()
    return (server.processor() - before) / ITEMS * 1e6


def rate(server, clients=64):
    """GetRecord a second."""
    return by_wrk(server.port, GET_RECORD, clients, SECONDS)


def beside(server, slow):
    """The same beside 900 connections that send nothing, or a byte a second."""
    with Others(server.port, 900, slow):
        return rate(server)


def beside_keys(folders):
    """GetRecord a second with keys, in parts of a hundred of those without, in turns; each folder has an archive."""
    with open(f"{folders[0]}.keys", "w", encoding="utf-8") as it:
        json.dump({"keys": [{"name": NAME, "digests": ["00" * 32] * 16}]}, it)
    with Server(MADE, folders[0], durable=True) as server, Server(MADE, folders[1], durable=True, behind=[it.name]) as guarded:
        return [100 / rate(server) * rate(guarded) for _ in range(RUNS)]


def asked_at_once(server):
    """By how many megabytes memory grows where 1,024 clients ask for one part each."""
    server.forget_memory()
    before, clients = server.most_memory(), [open_socket(server.port) for _ in range(1_024)]
    for it in clients:
        it.sendall(request_of(LIST_RECORDS))
    time.sleep(20)
    for it in clients:
        it.close()
    return server.most_memory() - before


def told(what, figures, unit):
    print(f"{what}: {statistics.median(figures):.1f} {unit} ({min(figures):.1f} to {max(figures):.1f}), load {os.getloadavg()[0]:.1f}", flush=True)


def daemon_bench():
    """Measures `oaihostd` beside `oaihost serve`, and beside itself.

    These are the processor time of a deposited line in messages of 500, GetRecord a second by wrk with one connection
    and with 64, with 64 beside 900 idle connections and beside 900 that send a byte a second (1,024 are open at most),
    the memory that 1,024 clients make it take which each ask for one part of 1,000 records at once, the memory after a
    load and after a start on its journal, and GetRecord a second with keys of depositors beside without. Each figure is
    the median of RUNS runs, interleaved, 5 if it is not set. It prints a line for each, with the load average; it
    judges nothing. ITEMS is the number of items, 20000 if it is not set.
    """
    needs("wrk")
    allow_files(8_192)
    with tempfile.TemporaryDirectory(prefix="oaihostd-") as top:
        plain, durable = [], []
        for run in range(RUNS):
            with Server(MADE, durable=False) as server:
                plain.append(load(server))
            with Server(MADE, f"{top}/{run}", durable=True) as server:
                durable.append(load(server))
                loaded = server.most_memory()
        told("a deposited line, oaihost serve", plain, "us of a processor")
        told("a deposited line, oaihostd serve", durable, "us of a processor")
        with Server(MADE, f"{top}/0", durable=True) as server:
            print(f"memory after the load {loaded:.1f} MB, after a start on its journal {server.most_memory():.1f} MB", flush=True)
            rates = [(rate(server, 1), rate(server), beside(server, False), beside(server, True)) for _ in range(RUNS)]
            one, many, idle, slow = zip(*rates)
            told("GetRecord, 1 connection", one, "a second")
            told("GetRecord, 64 connections", many, "a second")
            told("GetRecord, 64 connections beside 900 that are idle", idle, "a second")
            told("GetRecord, 64 connections beside 900 that send a byte a second", slow, "a second")
            told("1,024 clients that each ask for one part of 1,000 records", [asked_at_once(server)], "MB more")
        if RUNS > 1:
            told("GetRecord with keys", beside_keys([f"{top}/0", f"{top}/1"]), "% of those without")
