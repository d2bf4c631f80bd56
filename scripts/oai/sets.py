"""Measures what sets cost: the time of their harvests and first parts, and the memory that is taken for them."""

import random
import statistics
import tempfile

from oai.bench import CACHES, LIFETIME, SHORT, Bench, as_many, print_table
from oai.clients import Client
from oai.items import CHUNK, SEED, SET, bodies_of, body_of, configuration, item
from oai.servers import Server

# In how many sets each item is whose memory is measured, and of how many, and how many items there are then.
SETS_OF_ITEM = 3
SETS = [10, 30, 100, 1000]
MEASURED = 500_000


def server_of(size, cache, folder):
    """A server that has room for twice as many items, as far as a repository may have so many."""
    return Server(configuration(CHUNK, LIFETIME, 10_000, min(2 * size, 1_000_000)) | {"cache": cache}, f"{folder}/spill")


def in_turns(bench):
    """What is measured in each turn: its name, and the work."""
    within = bench.within()
    return {
        "records of all": lambda: bench.harvest("ListRecords"),
        "records of the set": bench.harvest_set,
        "first parts of all": lambda: as_many(bench.first_part, SHORT),
        "first parts of the set": lambda: as_many(lambda: bench.first_part(f"&set={SET}"), SHORT),
        "first parts of the set, within bounds": lambda: as_many(lambda: bench.first_part(f"&set={SET}{within}"), SHORT),
    }


def measured_turns(size, cache, turns):
    """A row for each of the works: the medians of its turns."""
    with tempfile.TemporaryDirectory(prefix="oaihost-") as folder, server_of(size, cache, folder) as server:
        bench, runs = Bench(server, size), []
        bench.client.post([body_of([{"set": SET, "name": "S"}])])
        bench.load()
        works = in_turns(bench)
        for _ in range(turns):
            for name, work in works.items():
                bench.rest()
                bench.measure(name, work)
            runs.append(dict(bench.figures))
        bench.client.connection.close()
    for name in works:
        by_processor, by_clock = (statistics.median(getattr(run[name], kind) for run in runs) for kind in ("by_processor", "by_clock"))
        yield {
            f"cache {cache:,}": name,
            "a second of the processor": f"{by_processor:,.0f}",
            "a second": f"{by_clock:,.0f}",
            "ms of the processor": f"{1000 / by_processor:.3f}",
        }


def memory_with(sets):
    """How many bytes of memory the server has once MEASURED items are loaded, each in SETS_OF_ITEM of so many sets, or in none where there are none."""
    chance = random.Random(SEED)
    names = [f"set{number:03}" for number in range(sets)]
    lines = (item(number, sets=chance.sample(names, SETS_OF_ITEM) if names else ()) for number in range(MEASURED))
    with tempfile.TemporaryDirectory(prefix="oaihost-") as folder, server_of(MEASURED, 64, folder) as server:
        client = Client(server)
        client.post(bodies_of({"set": name, "name": "S"} for name in names))
        client.post(bodies_of(lines))
        client.get("verb=ListIdentifiers&metadataPrefix=oai_dc")
        client.connection.close()
        return server.memory() * 2**20


def set_costs(items: int = 1_000_000, turns: int = 5):
    """What a harvest and a first part of a set cost beside those of all items, and what memory sets take.

    Of ITEMS items, 1,000,000 if not given, every tenth is in the set, with the file of the pages on a disk, and
    CACHES of 64 pages and 4,096. On one server for each cache, in turns, five if TURNS is not given: a harvest of all
    in parts of 100, one of the set, and for five seconds each first parts of all, of the set, and of the set within the
    middle half of the datestamps. It prints the medians. Then, of 500,000 items in three sets each, of 10 to 1,000:
    how many bytes of memory an item takes more than where there are no sets. It judges nothing.
    """
    for cache in CACHES:
        rows = list(measured_turns(items, cache, turns))
        print_table(list(rows[0]), rows)
        print()
    without = memory_with(0)
    rows = [{"sets": f"{SETS_OF_ITEM} of {sets}", "bytes an item": round((memory_with(sets) - without) / MEASURED)} for sets in SETS]
    print_table(list(rows[0]), rows)
    print("set-costs: done")
