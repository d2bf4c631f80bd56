"""Measures how fast a server is, and how that changes with the number of items."""

import itertools
import os
import random
import re
import shutil
import subprocess
import sys
import tempfile
import time
from typing import NamedTuple

from oai.clients import Client
from oai.items import CHUNK, LISTED, SEED, SET, bodies_of, body_of, configuration, identifier_of, in_set
from oai.servers import Server

SIZES = [1_000, 10_000, 100_000]

# How many pages the cache has, and where the file of the pages is: in memory, or on a disk.
CACHES = [int(it) for it in os.environ.get("CACHES", "64 4096").split()]
PLACES = os.environ.get("PLACES", "memory file").split()
FOLDERS = {"memory": "/dev/shm", "file": None}

# For how many seconds records are changed, and for how many most else is done.
LONG = float(os.environ.get("LONG", "30"))
SHORT = min(5.0, LONG)

# For how many seconds lists are begun: the server holds 10,000 lists, and each of them for LIFETIME seconds.
BEGINNING = min(1.0, LONG)

# After how many seconds without a request a list ends.
LIFETIME = 2

# How many lists are open while records are changed, and for how many seconds that goes: they do not end meanwhile.
OPEN = 20
MEANWHILE = LIFETIME / 2


def as_many(work, most):
    """What the work counts, which is done again for so many seconds, once at least."""
    count, end = 0, time.monotonic() + most
    while True:
        count += work()
        if time.monotonic() >= end:
            return count


class Figures(NamedTuple):
    """What was counted, for each second of the server's processor and for each in which its answers were waited for; the most memory that it had
    meanwhile, and how long the file of its pages is then, in megabytes."""

    by_processor: int
    by_clock: int
    memory: int
    file: int


class Bench:
    """Measures a server of so many items, operation by operation."""

    def __init__(self, server, size):
        self.server, self.size = server, size
        self.client = Client(server)
        self.chance = random.Random(SEED)
        self.versions = itertools.count(1)
        self.figures, self.stamps, self.tokens = {}, [], []
        self.begun = 0

    def measure(self, name, work):
        self.server.forget_memory()
        begun, waited = self.server.processor(), self.client.waited
        count = work()
        spent = self.server.processor() - begun, self.client.waited - waited
        megabytes = round(self.server.most_memory()), round(self.server.file_kilobytes() / 1024)
        self.figures[name] = Figures(*(round(count / max(it, 1e-6)) for it in spent), *megabytes)

    def load(self):
        """Deposits all items, and keeps their datestamps."""
        said = self.client.post(bodies_of(in_set(number) for number in range(self.size)))
        self.stamps = sorted({it.split(" ")[1] for it in said})
        return len(said)

    def get_record(self):
        self.client.get(f"verb=GetRecord&{LISTED}&identifier={identifier_of(self.chance.randrange(self.size))}")
        return 1

    def harvest(self, verb):
        self.begun += 1
        count, self.tokens = self.client.harvest(verb)
        if count != self.size:
            raise SystemExit(f"{count} records were read in place of {self.size}")
        return count

    def harvest_set(self):
        """Reads all records of the set."""
        self.begun += 1
        count, _ = self.client.harvest("ListRecords", f"&set={SET}")
        return count

    def part(self, token):
        self.client.get(f"verb=ListIdentifiers&resumptionToken={token}")
        return 1

    def first_part(self, arguments=""):
        self.begun += 1
        self.client.get(f"verb=ListRecords&{LISTED}{arguments}")
        return 1

    def within(self):
        """Arguments with bounds: the middle half of the datestamps of the load, which are all where it took no second."""
        quarter = len(self.stamps) // 4
        return f"&from={self.stamps[quarter]}&until={self.stamps[-1 - quarter]}"

    def change(self):
        """Another state of an item at random, in a message of its own."""
        number = self.chance.randrange(self.size)
        return len(self.client.post([body_of([in_set(number, next(self.versions))])]))

    def delete(self, numbers):
        """Deletes items, each in a message of its own, for LONG seconds."""
        end = time.monotonic() + LONG
        return sum(len(self.client.post([body_of([{"delete": identifier_of(it)}])])) for it in numbers if time.monotonic() < end)

    def rest(self):
        """Waits until all lists have ended, and asks as often as they were begun, since each call lets one go."""
        time.sleep(LIFETIME + 1)
        for _ in range(self.begun):
            self.client.get("verb=Identify")
        self.begun = 0

    def read(self):
        self.measure("GetRecord", lambda: as_many(self.get_record, SHORT))
        self.measure("records of ListRecords, whole", lambda: as_many(lambda: self.harvest("ListRecords"), SHORT))
        self.measure("records of a set, whole", lambda: as_many(self.harvest_set, SHORT))
        self.measure("headers of ListIdentifiers, whole", lambda: as_many(lambda: self.harvest("ListIdentifiers"), SHORT))
        tokens = self.tokens
        self.measure("the tenth part, again", lambda: as_many(lambda: self.part(tokens[:9][-1]), SHORT))
        self.part(tokens[-1])
        self.measure("the last part, again", lambda: as_many(lambda: self.part(tokens[-1]), SHORT))

    def begin_lists(self, behind):
        for name, arguments in {
            "": "",
            " within bounds": self.within(),
            " of a set": f"&set={SET}",
            " of a set, within bounds": f"&set={SET}" + self.within(),
        }.items():
            self.rest()
            self.measure(f"first parts{name}{behind}", lambda it=arguments: as_many(lambda: self.first_part(it), BEGINNING))
        self.rest()

    def write(self):
        self.measure(f"{OPEN} lists begin", lambda: sum(self.first_part() for _ in range(OPEN)))
        self.measure(f"changed records, {OPEN} lists open", lambda: as_many(self.change, MEANWHILE))
        self.rest()
        self.measure("changed records", lambda: as_many(self.change, LONG))
        self.measure("first parts, behind the changes", lambda: as_many(self.first_part, BEGINNING))
        self.rest()
        self.measure("deletions", lambda: self.delete(self.chance.sample(range(self.size), self.size // 2)))

    def run(self):
        self.client.post([body_of([{"set": SET, "name": "S"}])])
        self.measure("deposit lines", self.load)
        self.read()
        self.begin_lists("")
        self.write()
        self.client.connection.close()
        return self.figures


def measured(place, cache, size):
    """The figures of each operation, with the pages in that place."""
    made = configuration(CHUNK, LIFETIME, 10_000, min(2 * size, 1_000_000)) | {"cache": cache}
    with tempfile.TemporaryDirectory(prefix="oaihost-", dir=FOLDERS[place]) as folder, Server(made, f"{folder}/spill") as server:
        return Bench(server, size).run()


def measured_sets(count):
    """The row of so many sets: how many a second of the server's processor are added, and told by ListSets."""
    with Server(configuration(CHUNK, 3600, 10, 10)) as server:
        bench = Bench(server, 0)
        bodies = list(bodies_of({"set": f"s{number}", "name": "S"} for number in range(count)))
        bench.measure("added", lambda: len(bench.client.post(bodies)))
        bench.measure("told", lambda: as_many(lambda: bench.client.get("verb=ListSets").count(b"</setSpec>"), SHORT))
        bench.client.connection.close()
    return {"sets": count} | {name: it.by_processor for name, it in bench.figures.items()}


def print_table(heads, rows):
    table = [list(heads), *([str(it) for it in row.values()] for row in rows)]
    widths = [max(len(row[i]) for row in table) for i in range(len(table[0]))]
    lines = ["| " + " | ".join(it.rjust(width) for it, width in zip(row, widths)) + " |" for row in table]
    lines.insert(1, "|" + "|".join("-" * (width + 1) + ":" for width in widths) + "|")
    print("\n".join(lines), flush=True)


# The three tables: what their figures are, and how one is told.
TABLES = {
    "for each second of the server's processor": lambda it: f"{it.by_processor:,}",
    "for each second in which answers were waited for": lambda it: f"{it.by_clock:,}",
    "MB of memory at most, and of the file then": lambda it: f"{it.memory:,}, {it.file:,}",
}


def print_tables(place, cache, runs):
    """The tables of one place and one cache: a row for each operation, a column for each size."""
    names = list(next(iter(runs.values())))
    for title, told in TABLES.items():
        print(f"\nPages in {'memory' if place == 'memory' else 'a file'}, a cache of {cache:,} pages, {title}:\n")
        rows = [{"": name} | {size: told(figures[name]) for size, figures in runs.items()} for name in names]
        print_table(["", *(f"{size:,} items" for size in runs)], rows)


def plot(tables, folder):
    """Writes a plot of each operation against the number of items into the folder: a line for each place and cache."""
    os.makedirs(folder, exist_ok=True)
    for name in next(iter(next(iter(tables.values())).values())):
        script = f"set terminal pngcairo; set logscale xy; set xlabel 'items'; set key outside below\nset title '{name}, {next(iter(TABLES))}'\n".replace("server's", "server''s")
        script += f"set output '{folder}/{re.sub('[^A-Za-z0-9]+', '-', name)}.png'\n"
        lines = []
        for number, ((place, cache), runs) in enumerate(tables.items()):
            points = "\n".join(f"{size} {figures[name].by_processor}" for size, figures in runs.items())
            script += f"$p{number} << end\n{points}\nend\n"
            lines.append(f"$p{number} with linespoints title '{place}, {cache} pages'")
        subprocess.run(["gnuplot"], input=script + f"plot {', '.join(lines)}\n", text=True, check=True)
    print(f"plots: {folder}")


def bench(folder=None, *items: int):
    """How fast a server is, and how that grows with the number of items.

    Its items have records of 1.6 kB of XML, and every tenth is in a set: 1,000, 10,000 and 100,000, or ITEMS, up to
    1,000,000; with the file of the pages in memory (/dev/shm) and on a disk, and with a cache of 64 pages and of 4,096.
    Each is a server of its own. The operations, one after the other on one connection: deposit lines, 500 a message;
    GetRecord of an item at random; whole harvests by ListRecords and by ListIdentifiers, in parts of 100; the tenth
    part of a list, and its last, again and again; first parts of lists, of all items, within bounds, of a set, and of a
    set within bounds; 20 lists that begin, and changed records while they are open; changed records, at random, each in
    a message of its own; first parts behind these; deletions of up to half of the items, at random. Changes and
    deletions go on for LONG seconds, first parts for one, most else for five. At last it adds sets and lists them.

    For each place and each cache it prints three tables, a row for each operation and a column for each size: how many
    for each second of the server's processor, which other work on the machine hardly changes; how many for each second
    in which answers were waited for; and the most memory that the server had meanwhile, with how long the file is then.
    It judges nothing. Where a FOLDER is given and gnuplot is there, a plot of each operation goes there (apt-get
    install gnuplot-nox). CACHES are other caches, PLACES one of `memory` and `file`, LONG the seconds, 30 if not set.
    """
    sizes = items or SIZES
    tables = {}
    for place, cache in itertools.product(PLACES, CACHES):
        runs = tables[place, cache] = {}
        for size in sizes:
            print(f"{size:,} items, pages in {place}, a cache of {cache:,}: {time.strftime('%H:%M:%S')}", file=sys.stderr, flush=True)
            runs[size] = measured(place, cache, size)
        print_tables(place, cache, runs)
    print("\nSets, for each second of the server's processor:\n")
    print_table(["sets", "added", "told by ListSets"], [measured_sets(it) for it in (1_000, 10_000)])
    if folder and shutil.which("gnuplot"):
        plot(tables, folder)
    print("bench: done")
