"""Counts the instructions of the operations of the programs."""

import os
import random
import subprocess
import tempfile
from concurrent.futures import ThreadPoolExecutor

from oai import callgrind
from oai.clients import Client, token_of
from oai.items import CHUNK, LISTED, NAME, SEED, bodies_of, body_of, configuration, identifier_of, item, plain_text
from oai.model import Repository
from oai.programs import needs, oaihost
from oai.servers import Server, write_configuration

PAGE = "docs/PERFORMANCE.md"
SECTION = "\n## Instructions\n"

START = 1_704_067_200  # 2024-01-01T00:00:00Z

# How many harvests, and how many other operations, the two runs make.
HARVESTS = 1, 3
OTHERS = 100, 300


# ---- operations of `ask`


def exchange_line(moment, method, target, body=""):
    """An exchange, as `ask` reads it."""
    return f"{moment} {method} {target} {body}".rstrip(" \n") + "\n"


def asked(query):
    """A request, a second after the items were loaded."""
    return exchange_line(START + 1, "GET", f"/oai/{NAME}?{query}")


def deposited(number, moment, version=0):
    return exchange_line(moment, "POST", f"/deposit/{NAME}", body_of([item(number, version)]).decode())


class Counter:
    """Runs the program with an input, in a folder that has its configuration."""

    def __init__(self, folder, size):
        self.size = size
        self.command = [oaihost(), "ask", f"{folder}/config.json"]
        self.loaded = "".join(deposited(number, START) for number in range(size))
        write_configuration(self.command[2], configuration(CHUNK, 3600, 2 * max(HARVESTS), 2 * size))

    def answers(self, text):
        return subprocess.run(self.command, input=(self.loaded + text).encode(), stdout=subprocess.PIPE, check=True).stdout

    def instructions(self, text):
        """How many instructions the program takes to load the items and to answer the text."""
        return callgrind.counted(self.command, (self.loaded + text).encode())[0]

    def harvests(self, verb, count):
        """So many harvests, each up to its end. The program itself is asked for the first token of each, which has the number of its list."""
        text = ""
        for _ in range(count):
            text += asked(f"verb={verb}&{LISTED}")
            token = token_of(self.answers(text).rsplit(b"<OAI-PMH ", 1)[1])
            number = token.split(".")[0] if token else ""
            text += "".join(asked(f"verb={verb}&resumptionToken={number}.{cursor}") for cursor in range(CHUNK, self.size, CHUNK))
        headers = self.answers(text).count(b"</header>")
        if headers != count * self.size:
            raise SystemExit(f"{headers} headers were read in place of {count * self.size}")
        return text

    def gets(self, count):
        chance = random.Random(SEED)
        query = f"verb=GetRecord&{LISTED}&identifier="
        return "".join(asked(query + identifier_of(chance.randrange(self.size))) for _ in range(count))

    def deposits(self, count):
        return "".join(deposited(self.size + number, START) for number in range(count))

    def changes(self, count):
        chance = random.Random(SEED)
        return "".join(deposited(chance.randrange(self.size), START + 1 + number, 1) for number in range(count))

    def each(self, operation):
        """How many instructions one operation takes."""
        write, runs, parts = operation
        first, second = (self.instructions(write(self, count)) for count in runs)
        return round((second - first) / ((runs[1] - runs[0]) * (self.size if parts else 1)))


# The operations: what writes so many of them, how many the two runs make, and whether each has a part for every item.
OPERATIONS = {
    "a record of ListRecords": (lambda it, count: it.harvests("ListRecords", count), HARVESTS, True),
    "a header of ListIdentifiers": (lambda it, count: it.harvests("ListIdentifiers", count), HARVESTS, True),
    "GetRecord": (Counter.gets, OTHERS, False),
    "a deposit line": (Counter.deposits, OTHERS, False),
    "a changed record": (Counter.changes, OTHERS, False),
}


def last_figures():
    """The figure of each operation under `ask` in the page's table of them, as it stands there: its third column."""
    figures = {}
    with open(PAGE, encoding="utf-8") as page:
        section = page.read().split(SECTION, 1)[1].split("\n## ", 1)[0]
    for line in section.splitlines():
        cells = [it.strip() for it in line.strip().strip("|").split("|")]
        if cells[0] in OPERATIONS:
            figures[cells[0]] = cells[2]
    return figures


def instructions(items: int = 1000):
    """Counts the instructions of five operations of the program, by valgrind's callgrind.

    A record of ListRecords and a header of ListIdentifiers in a harvest by tokens in parts of 100, GetRecord of an item
    at random, a deposit line of a new item, and one that changes an item at random, each in a message of its own. It
    runs `ask` twice for each, with different numbers of them, and divides the difference. 1,000 items, whose records
    have 1.6 kB of XML, are loaded before, or as many as ITEMS says. It prints a table, with the last figures of
    docs/PERFORMANCE.md beside them; it judges nothing. What is deposited comes from a fixed seed.
    """
    needs("valgrind")
    last = last_figures()
    with tempfile.TemporaryDirectory(prefix="oaihost-") as folder, ThreadPoolExecutor(os.cpu_count()) as pool:
        counter = Counter(folder, items)
        figures = list(pool.map(counter.each, OPERATIONS.values()))
    print(f"| Instructions, {items:,} items | now | last in {PAGE} |")
    print("|---|---:|---:|")
    for name, figure in zip(OPERATIONS, figures):
        print(f"| {name} | {figure:,} | {last.get(name, '-')} |")


# ---- operations of a server, and how they grow

SIZES = 1_000, 1_000_000

# Of how many items, the first ones, is asked, and how many operations are counted.
NEAR = 1_000
MANY = 100

# How many parts of a list are counted, behind the first.
PARTS = 9

# After how many seconds without a request a list ends: after all that is done here.
LIFETIME = 86_400


class ServerCounter:
    """A server of so many items under callgrind, which counts only while it is told to. The last of them are deposited while it counts."""

    def __init__(self, server, size):
        self.server, self.size, self.client = server, size, Client(server)
        self.chance = random.Random(SEED)
        self.client.post(bodies_of(item(number) for number in range(size - MANY)))

    def control(self, *arguments):
        """Tells callgrind something. It interrupts what the server waits for, which ends a connection, so there is none meanwhile."""
        self.client.connection.close()
        callgrind.control(self.server.process.pid, *arguments)

    def counted(self, work):
        """How many instructions the work takes, and what it returns."""
        self.control("--instr=on")
        self.control("--zero")
        made = work()
        self.control("--dump")
        self.control("--instr=off")
        return callgrind.total_in(f"{self.server.folder.name}/counted.*"), made

    def reads(self):
        """How often the server has read from its file or a connection."""
        with open(f"/proc/{self.server.process.pid}/io", encoding="ascii") as it:
            return next(int(line.split()[1]) for line in it if line.startswith("syscr:"))

    def begin(self, verb):
        """The first part of a list, and the query of the next."""
        return self.next_query(verb, self.client.get(f"verb={verb}&{LISTED}"))

    def next_query(self, verb, document):
        token = token_of(document)
        return token and f"verb={verb}&resumptionToken={token}"

    def parts(self, verb, query, count):
        for _ in range(count):
            query = self.next_query(verb, self.client.get(query))
        return query

    def listed(self, verb):
        """A record of a list's parts behind the first, whose pages another list has read."""
        self.parts(verb, self.begin(verb), PARTS)
        query = self.begin(verb)
        return self.counted(lambda: self.parts(verb, query, PARTS))[0] / (PARTS * CHUNK)

    def get_records(self):
        numbers = [self.chance.randrange(NEAR) for _ in range(MANY)]
        ask = lambda: [self.client.get(f"verb=GetRecord&{LISTED}&identifier={identifier_of(it)}") for it in numbers]
        ask()
        return self.counted(ask)[0] / MANY

    def deposits(self, lines):
        """Each of the lines in a message of its own."""
        bodies = [body_of([line]) for line in lines]
        return self.counted(lambda: self.client.post(bodies))[0] / len(bodies)

    def first_part(self):
        self.begin("ListRecords")
        return self.counted(lambda: self.begin("ListRecords"))[0]

    def ends(self):
        """The first part that a token gives, and the last."""
        query = self.begin("ListIdentifiers")
        first, query = self.counted(lambda: self.parts("ListIdentifiers", query, 1))
        query = self.parts("ListIdentifiers", query, self.size // CHUNK - 3)
        last, query = self.counted(lambda: self.parts("ListIdentifiers", query, 1))
        if query is not None:
            raise SystemExit("the list has more parts than were read")
        return first, last

    def figures(self):
        """Each operation, and the instructions that one takes."""
        deposit = self.deposits(item(number) for number in range(self.size - MANY, self.size))
        before = self.reads()
        self.begin("ListRecords")
        reads = self.reads() - before
        first, last = self.ends()
        return {
            "a record of ListRecords": self.listed("ListRecords"),
            "a header of ListIdentifiers": self.listed("ListIdentifiers"),
            "GetRecord": self.get_records(),
            "the first part of a list": self.first_part(),
            "its first part by a token": first,
            "its last part": last,
            "a deposit line": deposit,
            "a changed record": self.deposits(item(number, 1) for number in self.chance.sample(range(NEAR), MANY)),
            "reads of the first list that begins": reads,
        }


def figures_of(size):
    made = configuration(CHUNK, LIFETIME, 100, size)
    with Server(made, front=lambda folder: callgrind.counting(f"{folder}/counted", "--instr-atstart=no")) as server:
        return ServerCounter(server, size).figures()


def instructions_growth(*items: int):
    """Counts how the instructions of the server's operations change with the number of items.

    valgrind's callgrind counts: a record of ListRecords and a header of ListIdentifiers in parts of 100, GetRecord, a
    deposit line, a changed record, the first part of a list, and the first and the last part that a token gives. For
    each size a server is loaded while nothing is counted; then each operation is asked over HTTP, about 1,000 items
    whose pages the cache holds, and only its instructions are counted. It prints a table with the ratio of the last
    size to the first; it judges nothing. What is deposited comes from a fixed seed. 1,000,000 items take some quarter
    of an hour and 3 GB of a disk.
    """
    needs("valgrind", "callgrind_control")
    sizes = items or SIZES
    columns = [figures_of(size) for size in sizes]
    print("| Instructions | " + " | ".join(f"{size:,} items" for size in sizes) + " | ratio |")
    print("|---|" + "---:|" * (len(sizes) + 1))
    for name in columns[0]:
        row = [column[name] for column in columns]
        print(f"| {name} | " + " | ".join(f"{round(it):,}" for it in row) + f" | {row[-1] / row[0]:.2f} |")


# ---- the same records as lists of fields, and as elements

# How many letters a text has, so that a record has some 2,000 bytes of XML.
LETTERS = 500


def both_forms(settings, count):
    """Lines of so many items whose records are lists of fields, and lines of as many whose records are the elements that those are printed as."""
    repository, lists, elements = Repository("http://host.example", settings), [], []
    for number in range(count):
        line = item(number)
        line["records"]["oai_dc"].append(("description", plain_text(random.Random(number), LETTERS)[:LETTERS]))
        text = repository.metadata(line["records"]["oai_dc"], "oai_dc")
        lists.append(line)
        elements.append(line | {"records": {"oai_dc": text}})
    return lists, elements


class FormCounter(ServerCounter):
    """A server under callgrind, whose items are these lines; those of the second half are deposited while it counts."""

    def __init__(self, server, lines):
        self.server, self.size, self.client = server, len(lines), Client(server)
        self.lines = lines

    def figures(self):
        half = self.size // 2
        self.client.post([body_of([it]) for it in self.lines[:half]])
        ask = lambda: [len(self.client.get(f"verb=GetRecord&{LISTED}&identifier={it['deposit']}")) for it in self.lines[:half]]
        ask()
        counted, lengths = self.counted(ask)
        return {"a deposit line": self.deposits(self.lines[half:]), "GetRecord": counted / half, "bytes of a document": sum(lengths) / half}


def instructions_elements(items: int = 200):
    """Counts the instructions of records that are elements, beside those of the same records as lists of fields.

    A server of `oaihostd` under valgrind's callgrind is given ITEMS items, each with a list of fields in oai_dc of some 2,000
    bytes of XML; another one the elements that the first one prints. Of each, half of the deposits are counted, and
    GetRecord of the others. It prints a table; it judges nothing. What is deposited comes from a fixed seed.
    """
    needs("valgrind", "callgrind_control")
    made, columns = configuration(CHUNK, LIFETIME, 100, 2 * items), []
    for lines in both_forms(made["repositories"][0], items):
        with Server(made, durable=True, front=lambda folder: callgrind.counting(f"{folder}/counted", "--instr-atstart=no")) as server:
            columns.append(FormCounter(server, lines).figures())
    lists, elements = columns
    print("| Instructions | fields | element | ratio |\n|---|---:|---:|---:|")
    for name in lists:
        print(f"| {name} | {lists[name]:,.0f} | {elements[name]:,.0f} | {elements[name] / lists[name]:.2f} |")
