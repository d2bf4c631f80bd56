"""Measures what a start and a checkpoint of `oaihostd` cost for what its journal has."""

import json
import os
import shutil
import subprocess
import tempfile
import time

from oai.callgrind import counting, total_in
from oai.clients import Client, get, token_of
from oai.items import BODY, LISTED, NAME, bodies_of, configuration, deposit, item
from oai.journal import item_bytes
from oai.programs import needs, oaihostd
from oai.servers import serve_durably, write_configuration

CONFIGURATION = configuration(chunk=100, lifetime=1_000_000, lists=10_000, items=1_000_000)


def started(config, folder, front=()):
    """A server on the folder, whose notes nobody reads."""
    return serve_durably(config, folder, front, errors=subprocess.DEVNULL)


def deposit_items(server, numbers):
    """Deposits these items, in messages of 500."""
    client = Client(server)
    client.post(bodies_of(item(it) for it in numbers))
    client.connection.close()


def follow(server, count):
    """Asks for so many parts by tokens: lists are followed to their ends, one after the other."""
    connection, first = server.connect(), f"verb=ListIdentifiers&{LISTED}"
    query = first
    while count > 0:
        token = token_of(get(connection, query)[1])
        count -= 1 if token else 0
        query = f"verb=ListIdentifiers&resumptionToken={token}" if token else first
    connection.close()


def instructions(config, folder):
    """How many instructions a start on the folder takes."""
    started(config, folder, counting(f"{folder}.callgrind")).stop()
    return total_in(f"{folder}.callgrind")


def measured(name, config, folder):
    """Prints what a start on the folder takes, and gives its instructions."""
    said = subprocess.run([oaihostd(), "verify", folder], capture_output=True, text=True, check=False).stdout.split()
    with started(config, folder) as server:
        seconds, megabytes = server.seconds, server.most_memory()
    counted = instructions(config, folder)
    print(f"{name:<34} {said[1]:>9} records {said[2]:>12} bytes {seconds:8.2f} s {megabytes:8.1f} MB {counted:>16} instructions", flush=True)
    return counted


def journals(top, config, count, requests):
    """The folders of four journals: of so many items, of twice as many, and of the former behind so many requests by tokens, and twice as many."""
    one, two, few, many = (f"{top}/{it}" for it in ("one", "two", "few", "many"))
    with started(config, one) as server:
        deposit_items(server, range(count))
    shutil.copytree(one, two)
    with started(config, two) as server:
        deposit_items(server, range(count, 2 * count))
    for old, new in ((one, few), (few, many)):
        shutil.copytree(old, new)
        with started(config, new) as server:
            follow(server, requests)
    return one, two, few, many


def recovery(items: int = 10_000, requests: int = 5_000):
    """Measures what crash recovery of `oaihostd` costs.

    Journals are made by a server: of ITEMS and twice as many items, deposited in messages of 500, and behind ITEMS of
    them of REQUESTS and twice as many requests for parts of a list by tokens. For each it prints how many records and bytes the journal has, how many
    seconds a start takes, and how many megabytes of memory it then has; and then, of the differences, how many
    instructions, by valgrind's callgrind, a line takes that is replayed, and a request by a token. It judges
    nothing.
    """
    needs("valgrind")
    with tempfile.TemporaryDirectory(prefix="oaihostd-") as top:
        config = f"{top}/config.json"
        write_configuration(config, CONFIGURATION)
        names = f"{items} items", f"{2 * items} items", f"{requests} requests by tokens", f"{2 * requests} requests by tokens"
        first, second, third, fourth = [measured(name, config, it) for name, it in zip(names, journals(top, config, items, requests))]
    print(f"a line replayed: {(second - first) // items} instructions")
    print(f"a request by a token replayed: {(fourth - third) // requests} instructions")


def turn_of(number, turn):
    """The line of an item with a title of that turn, without a space that it can do without."""
    fields = {"title": f"Title {turn} of item {number}", "creator": "Doe, J.", "date": "2024-01-01", "description": "d" * 300}
    return json.dumps(deposit(f"oai:host.example:{number:07}", [], {"oai_dc": list(fields.items())}), separators=(",", ":")) + "\n"


def turn_bodies(items, turn):
    """The bodies of messages that have all items in that turn."""
    for first in range(0, items, BODY):
        yield "".join(turn_of(number, turn) for number in range(first, min(first + BODY, items))).encode()


def checkpoint_size(items: int = 1_000_000, times: int = 10):
    """Shows how long a journal is before and behind a checkpoint, and how long that takes.

    And that a dump of it has each item. So many items are deposited so many times, in messages of 500 lines. The status
    is 0 where the journal is then at most 1.2 times as long as the bytes of its items.
    """
    with tempfile.TemporaryDirectory(prefix="checkpoint-") as place:
        config, folder = f"{place}/config.json", f"{place}/archive"
        journal = f"{folder}/journal"
        write_configuration(config, CONFIGURATION)
        with started(config, folder) as server:
            for turn in range(times):
                Client(server).post(turn_bodies(items, turn))
        before, begun = os.path.getsize(journal), time.monotonic()
        said = subprocess.run([oaihostd(), "checkpoint", config, folder], capture_output=True, text=True, check=False)
        print(f"checkpoint: {said.stdout.strip()} {said.stderr.splitlines()[-1]}, {time.monotonic() - begun:.0f} s")
        after, (total, count), begun = os.path.getsize(journal), item_bytes(journal), time.monotonic()
        dumped = subprocess.run([oaihostd(), "dump", folder, NAME], stdout=subprocess.PIPE, check=False).stdout.count(b"\n")
        print(f"dump: {dumped} lines, {time.monotonic() - begun:.0f} s")
        print(f"{count} items of {total} bytes; the journal had {before} bytes, and has {after}: {after / total:.2f} times the items")
    return 0 if count == items == dumped and after <= 1.2 * total else 1
