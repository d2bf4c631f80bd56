"""Measures what a checkpoint costs that `oaihostd` writes while it serves, and what it leaves of an open list."""

import os
import re
import tempfile
import time

from oai.clients import Client, get, token_of
from oai.connections import GET_RECORD, answers_and_waits
from oai.items import BODY, LISTED, bodies_of, configuration, item
from oai.programs import needs
from oai.servers import serve_durably, write_configuration

CONFIGURATION = configuration(chunk=100, lifetime=1_000_000, lists=10_000, items=1_000_000)

# For how many seconds the server is measured, without a checkpoint and beside it, with one connection, and with 64.
SECONDS = 5


class Measured:
    """How long each GetRecord of one connection took, in milliseconds, and over how many seconds all were asked."""

    def __init__(self, connection, goes_on):
        self.times, begun, number = [], time.monotonic(), 0
        while goes_on():
            number += 1
            at = time.perf_counter()
            get(connection, f"verb=GetRecord&{LISTED}&identifier={item(number % 1_000)['deposit']}")
            self.times.append((time.perf_counter() - at) * 1_000)
        self.seconds = time.monotonic() - begun

    def line(self):
        times = sorted(self.times)
        middle, high = times[len(times) // 2], times[len(times) * 99 // 100]
        return f"{len(times) / self.seconds:8.0f} a second, {middle:7.2f} ms at the median, {high:7.2f} at the 99th of 100, {times[-1]:7.2f} at most"


def measure(what, server, connection, goes_on):
    """Measures GetRecord with one connection, and then with 64, each as long as that says, and SECONDS at most."""
    until = time.monotonic() + SECONDS
    print(f"{what}, 1 connection ", Measured(connection, lambda: goes_on() and time.monotonic() < until).line(), flush=True)
    if goes_on():
        many, (middle, high, most) = answers_and_waits(server.port, GET_RECORD, 64, SECONDS)
        ended = "" if goes_on() else ", but it ended meanwhile"
        print(f"{what}, 64 connections {many:8.0f} a second, {middle} at the median, {high} at the 99th of 100, {most} at most{ended}", flush=True)


def length_of(count):
    """How long the journal of so many items is, in bytes: of one message of 500, for all."""
    return sum(len(it) for it in bodies_of(item(number) for number in range(500))) * count // 500


def checkpoint_beside(count: int):
    """Measures a checkpoint of COUNT items, at least 20,000, that is written while clients ask for single records.

    The items are deposited in messages of 500, a list of them is begun, and more are deposited until a checkpoint is
    begun. GetRecord is asked for by one connection, and then by 64, five seconds each, before that, and while it is
    written: how many were answered a second, and how long an answer took. Then the list is asked for its second page.
    Last come the memory that the server took meanwhile, the length of the journal before and after, how long the
    checkpoint took, and what the server said. The status is 1 where the list did not go on.
    """
    needs("wrk")
    with tempfile.TemporaryDirectory(prefix="beside-") as top:
        config, folder = f"{top}/config.json", f"{top}/folder"
        write_configuration(config, CONFIGURATION)
        with tempfile.TemporaryFile("w+") as errors:
            behind = ("--checkpoint-after", str(length_of(count)))
            server = serve_durably(config, folder, behind=behind, errors=errors)
            client = Client(server)
            client.post(bodies_of(item(number) for number in range(count - 1_000)))
            connection = server.connect()
            status, first = get(connection, f"verb=ListIdentifiers&{LISTED}")
            measure("alone ", server, connection, lambda: True)
            new, number = f"{folder}/journal.new", count - 1_000
            while not os.path.exists(new):
                client.post(bodies_of([item(number % 1_000_000)]))
                number += 1
            server.forget_memory()
            memory, length = server.memory(), os.path.getsize(f"{folder}/journal")
            measure("beside", server, connection, lambda: os.path.exists(new))
            while os.path.exists(new):
                get(connection, "verb=Identify")
            status, page = get(connection, "verb=ListIdentifiers&resumptionToken=1.100")
            print(f"memory {memory:.1f} MB before, {server.most_memory():.1f} at most")
            print(f"journal {length} bytes before, {os.path.getsize(f'{folder}/journal')} after")
            connection.close()
            client.connection.close()
            server.kill()
            print(server.said(), end="")
    return int(status != 200 or b"<header>" not in page)


# How many items the list has that is kept open.
LIST = 10_000
TITLE = re.compile(rb"<identifier>([^<]*)</identifier>.*?<dc:title>([^<]*)</dc:title>", re.DOTALL)


class OpenList:
    """A list of records that a client follows part by part."""

    def __init__(self, client):
        self.client, self.query, self.found = client, f"verb=ListRecords&{LISTED}", []

    def read_part(self):
        """Reads the next part; whether there is another one."""
        document = self.client.get(self.query)
        self.found += [(it.decode(), title.decode()) for it, title in TITLE.findall(document)]
        token = token_of(document)
        self.query = f"verb=ListRecords&resumptionToken={token}"
        return bool(token)

    def is_whole(self):
        """Whether it had each of the first items once, in order, as it was when the list began."""
        wanted = [item(number) for number in range(LIST)]
        return self.found == [(it["deposit"], dict(it["records"]["oai_dc"])["title"]) for it in wanted]


def open_list(changes: int):
    """Keeps a list open for CHANGES changes, at least 100,000, and shows that it is the one that was begun.

    10,000 items are deposited, and a list of all of them is begun, in parts of 100. Then records are changed, in
    messages of 500, and a part of the list is asked for each time that a hundredth of all changes is done. The list has
    to have each item once, in order, as it was at first. The last lines are how many checkpoints took the place of the
    journal meanwhile, how long it was at most, and whether the list is whole; if not, the status is 1.
    """
    with tempfile.TemporaryDirectory(prefix="open-") as top:
        config, journal = f"{top}/config.json", f"{top}/folder/journal"
        write_configuration(config, CONFIGURATION)
        with tempfile.TemporaryFile("w+") as errors:
            server = serve_durably(config, f"{top}/folder", errors=errors)
            client = Client(server)
            client.post(bodies_of(item(number) for number in range(LIST)))
            followed, longest, parts = OpenList(client), 0, 1
            more = followed.read_part()
            for done in range(0, changes, BODY):
                lines = (item(number % LIST, 1 + number // LIST) for number in range(done, done + BODY))
                client.post(bodies_of(lines))
                longest = max(longest, os.path.getsize(journal))
                if more and done * 100 >= parts * changes:
                    more, parts = followed.read_part(), parts + 1
            while more:
                more = followed.read_part()
            client.connection.close()
            server.kill()
            switches = len(re.findall(r"^checkpoint: \d+ records", server.said(), re.MULTILINE))
    print(f"{switches} checkpoints while it served, the journal had at most {longest} bytes")
    print("the list is whole" if followed.is_whole() else f"the list has {len(followed.found)} records, and is not whole")
    return int(not followed.is_whole())
