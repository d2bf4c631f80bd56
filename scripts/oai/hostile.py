"""Counts what hostile input costs at two sizes."""

import json
import os
import re
import subprocess
import tempfile
from concurrent.futures import ThreadPoolExecutor
from functools import lru_cache
from typing import Callable, NamedTuple

from oai.bench import print_table
from oai.callgrind import counted
from oai.instructions import START, asked, exchange_line
from oai.items import NAME, configuration, deposit
from oai.programs import needs, oaihost
from oai.servers import write_configuration

# How many runs are made side by side, and how many seconds one may take.
JOBS = int(os.environ.get("JOBS", "2"))
PATIENCE = 600

# Above this the cost grows faster than n log n: from 1,000 to 8,000 things n log n has 1.3.
MOST = 1.5

# Sizes, in bytes or in things: of lines and bodies, of heads, of what is kept, of sets and lines, and of pieces of a byte.
LONG = 125_000, 1_000_000
HEADS = 2_000, 16_000
STORED = 100_000, 800_000
MANY = 1_000, 8_000
PIECES = 10_000, 80_000

ITEM = "oai:host.example:1"


def nothing(_):
    return ""


class Hostile(NamedTuple):
    """A kind of input: its name, the two sizes, what writes it in one of them, the command that reads it, and what writes what comes before it
    and is not counted."""

    name: str
    sizes: tuple
    write: Callable
    command: str = "ask"
    before: Callable = nothing


# ---- deposit lines


def line(text):
    return exchange_line(START, "POST", f"/deposit/{NAME}", text)


def nested(count):
    """Objects in one another, 127 deep, each with so many members that stand twice."""
    members = "".join(f'"{number}":0,' for number in range(count))
    return f'{{{members}{members}"":' * 126 + "{}" + "}" * 126


def doubled(depth):
    """An object whose member stands twice, each time with such an object, so deep."""
    return "0" if depth == 0 else f'{{"a":{doubled(depth - 1)},"a":{doubled(depth - 1)}}}'


def members(length):
    """Members of different names, in an order that is none."""
    count = length // 13
    return "{" + ",".join(f'"{number * 7_919 % count:06}":0' for number in range(count)) + "}"


def among(start, part, count, end):
    """So many equal parts, with commas between them, within brackets or quotes."""
    return start + ",".join([part] * count) + end


# Lines of about so many bytes, each of which is one JSON value, or none.
VALUES = {
    "a text": lambda n: '"' + "a" * n + '"',
    "a text without an end": lambda n: '"' + "a" * n,
    "a number": lambda n: "1" * n,
    "a fraction": lambda n: "0." + "1" * n,
    "an exponent": lambda n: "1e" + "1" * n,
    "spaces": lambda n: " " * n + "1",
    "texts of a character": lambda n: among("[", '"a"', n // 4, "]"),
    "lists in one another": lambda n: "[" * n,
    "lists beside one another": lambda n: among("[", "[]", n // 3, "]"),
    "objects 127 deep, their members twice": lambda n: nested(n // (126 * 14)),
    "objects by two in one another": lambda n: doubled((n // 14).bit_length()),
    "members of different names": members,
    "members of one name": lambda n: among("{", '"a":0', n // 6, "}"),
    "a long name": lambda n: '{"' + "a" * n + '":0}',
    "escapes \\u": lambda n: '"' + "\\u0041" * (n // 6) + '"',
    "escapes \\u in pairs": lambda n: '"' + "\\ud83d\\ude00" * (n // 12) + '"',
    "escapes of a character": lambda n: '"' + "\\n" * (n // 2) + '"',
}


def item_line(sets, fields):
    return line(json.dumps(deposit(ITEM, sets, {"oai_dc": fields})))


def flat(count):
    return [f"s{number}" for number in range(count)]


def covering(count):
    """Sets each of which covers the next, up to 120 of them, which have 240 bytes; and then others."""
    return [":".join([f"s{number // 120}"] + ["a"] * (number % 120)) for number in range(count)]


def added(sets):
    return "".join(line(json.dumps({"set": it, "name": "S"})) for it in sets)


def in_sets(sets):
    """What comes before where an item in so many sets is asked for or changed."""
    return lambda n: added(sets(n)) + item_line(sets(n), [])


def titled(text):
    """What comes before where an item is asked for whose title is made of that."""
    return lambda n: item_line([], [["title", text * (n // len(text.encode()))]])


GET = f"verb=GetRecord&metadataPrefix=oai_dc&identifier={ITEM}"
LIST = "verb=ListRecords&metadataPrefix=oai_dc"


def always(text):
    return lambda n: text


def deposits():
    """Deposits of items in many sets, of many fields and of long texts, and what is asked of such an item."""
    for kind, sets in {"sets": flat, "sets that cover the next": covering}.items():
        yield Hostile(f"an item in n {kind}, which are not there", MANY, lambda n, it=sets: item_line(it(n), []))
        yield Hostile(f"an item in n {kind}", MANY, lambda n, it=sets: item_line(it(n), []), before=lambda n, it=sets: added(it(n)))
        for name, text in {
            "GetRecord": asked(GET),
            "its formats": asked(f"verb=ListMetadataFormats&identifier={ITEM}"),
            "ListRecords": asked(LIST),
            "ListRecords of a set": asked(f"{LIST}&set=s0"),
            "ListIdentifiers of no set of it": asked("verb=ListIdentifiers&metadataPrefix=oai_dc&set=t"),
            "another state": item_line([], []),
            "its deletion": line(json.dumps({"delete": ITEM})),
        }.items():
            yield Hostile(f"{name}, an item in n {kind}", MANY, always(text), before=in_sets(sets))
    yield Hostile("one set n times", LONG, lambda n: item_line(["s"] * (n // 5), []), before=always(added("s")))
    yield Hostile("n sets are added", MANY, lambda n: added(flat(n)))
    yield Hostile("n sets are listed", MANY, always(asked("verb=ListSets")), before=lambda n: added(flat(n)))
    yield Hostile("fields without a text", STORED, lambda n: item_line([], [["title", ""]] * (n // 13)))
    for name, text in {"letters": "t", "CR": "\r", "&": "&", "é": "é"}.items():
        yield Hostile(f"an item of {name}", STORED, titled(text))
        yield Hostile(f"GetRecord, an item of {name}", STORED, always(asked(GET)), before=titled(text))


# ---- requests

# Queries of about so many bytes.
QUERIES = {
    "arguments of one name": lambda n: "verb=Identify" + "&x=1" * (n // 4),
    "arguments of different names": lambda n: "verb=Identify" + "".join(f"&{number:05}=" for number in range(n // 7)),
    "verbs": lambda n: "&".join(["verb=Identify"] * (n // 14)),
    "identifiers": lambda n: GET + "&identifier=x:1" * (n // 15),
    "& alone": lambda n: "verb=Identify" + "&" * n,
    "= alone": lambda n: "verb=Identify" + "=" * n,
    "+ in an identifier": lambda n: GET + "+" * n,
    "% in an identifier": lambda n: GET + "%61" * (n // 3),
    "% of a quote in an identifier": lambda n: GET + "%22" * (n // 3),
    "% of no character in an identifier": lambda n: GET + "%ff" * (n // 3),
    "% without digits in an identifier": lambda n: GET + "%" * n,
    "% in a name": lambda n: "verb=Identify&" + "%61" * (n // 3),
    "a long identifier": lambda n: GET + "1" * n,
    "a long verb": lambda n: "verb=" + "a" * n,
    "a long metadataPrefix": lambda n: "verb=ListRecords&metadataPrefix=" + "a" * n,
    "a long set": lambda n: f"{LIST}&set=s0" + ":a" * (n // 2),
    "a long bound": lambda n: f"{LIST}&from=2024-01-01" + "0" * n,
    "a long resumptionToken": lambda n: "verb=ListRecords&resumptionToken=1." + "2" * n,
    "a resumptionToken of points": lambda n: "verb=ListRecords&resumptionToken=1" + "." * n,
}


# ---- messages


def pieces(data, label=1, size=None):
    """The lines of a trace on which the data come, in pieces of so many bytes, or in one."""
    size = size or max(len(data), 1)
    return "".join(f"{START} {label} {data[at : at + size].hex()}\n" for at in range(0, len(data), size))


def message(method, path, body=b"", fields=b""):
    length = b"Content-Length: %d\r\n" % len(body) if body else b""
    return f"{method} /{path} HTTP/1.1\r\nHost: h\r\n".encode() + fields + length + b"\r\n" + body


def deposited(body):
    return message("POST", f"deposit/{NAME}", body)


def lines(write):
    """A message of so many lines of deposits."""
    return lambda n: deposited("".join(f"{json.dumps(write(number))}\n" for number in range(n)).encode())


REQUEST = b"GET / HTTP/1.1\r\n"
FOUND = b"Host: h\r\n"

# Heads of about so many bytes.
HEADED = {
    "a head without an end": lambda n: b"GET /" + b"a" * n,
    "a head of CR": lambda n: b"\r" * n,
    "a head of line ends": lambda n: b"\r\n" * (n // 2),
    "a head of spaces": lambda n: b" " * n,
    "a target": lambda n: message("GET", "a" * (n - 50)),
    "a field": lambda n: message("GET", "", fields=b"A: " + b"a" * (n - 60) + b"\r\n"),
    "a field of spaces": lambda n: message("GET", "", fields=b"A:" + b" " * (n - 60) + b"\r\n"),
    "a name of a field": lambda n: message("GET", "", fields=b"a" * (n - 60) + b":\r\n"),
    "fields without an end": lambda n: REQUEST + FOUND + b"a:\r\n" * ((n - 40) // 4),
    "fields": lambda n: message("GET", "", fields=b"a:\r\n" * ((n - 40) // 4)),
    "fields Connection": lambda n: message("GET", "", fields=b"Connection: " + b"x," * ((n - 60) // 2) + b"x\r\n"),
    "digits of a length": lambda n: message("GET", "", fields=b"Content-Length: " + b"0" * (n - 60) + b"\r\n"),
}

# Bodies of about so many bytes.
BODIES = {
    "a body of spaces": lambda n: deposited(b" " * n),
    "a body of line ends": lambda n: deposited(b"\n" * n),
    "a body of lines of a byte": lambda n: deposited(b"x\n" * (n // 2)),
    "a body of a request": lambda n: message("POST", f"oai/{NAME}", b"&" * n, b"Content-Type: application/x-www-form-urlencoded\r\n"),
}

# Messages of so many things.
THINGS = {
    "messages in one piece": lambda n: message("GET", "") * n,
    "requests in one piece": lambda n: message("GET", f"oai/{NAME}?verb=Identify") * n,
    "deposits in one piece": lambda n: deposited(b'{"delete":"x:1"}') * n,
    "lines of no item": lines(lambda number: {"delete": f"x:{number}"}),
    "lines of sets": lines(lambda number: {"set": f"s{number}", "name": "S"}),
    "lines of items": lines(lambda number: deposit(f"x:{number:06}", [], {"oai_dc": []})),
    "lines of items, in an order that is none": lines(lambda number: deposit(f"x:{number * 7_919 % 10_007:06}", [], {"oai_dc": []})),
    "lines of items, in falling order": lines(lambda number: deposit(f"x:{999_999 - number}", [], {"oai_dc": []})),
    "lines of one item": lines(lambda number: deposit("x:1", [], {"oai_dc": []})),
}


def traced(name, sizes, write, size=None):
    return Hostile(name, sizes, lambda n: pieces(write(n), size=size), "trace")


def connections(count):
    return "".join(pieces(b"GET", label) for label in range(count))


def messages():
    """Messages in one piece, and in pieces of a byte."""
    for name, write in HEADED.items():
        yield traced(name, HEADS, write)
        yield traced(f"{name}, byte by byte", HEADS, write, size=1)
    for name, write in BODIES.items():
        yield traced(name, LONG, write)
        yield traced(f"{name}, byte by byte", PIECES, write, size=1)
    for name, write in THINGS.items():
        yield traced(f"n {name}", MANY, write)
    yield Hostile("n connections", (128, 1_024), connections, "trace")


def all_inputs():
    for name, write in VALUES.items():
        yield Hostile(f"a line: {name}", LONG, lambda n, it=write: line(it(n)))
    yield from deposits()
    for name, write in QUERIES.items():
        yield Hostile(f"a query: {name}", LONG, lambda n, it=write: asked(it(n)))
    yield from messages()


# ---- counting


def last_answer(command, output):
    """The last that was answered: the refusal, the error or the status."""
    if command == "trace":
        output = b"".join(bytes.fromhex(it.split(b" ")[1].decode()) for it in output.splitlines() if not it.endswith(b" close"))
    found = re.findall(rb'^refused \d+ [a-z-]+|<error code="\w+"|^ok|^(?:HTTP/1.1 )?\d\d\d(?= |\n|$)', output, re.MULTILINE)
    return re.sub(rb'^HTTP/1.1 |<error code=|"', b"", found[-1]).decode() if found else "nothing"


class Counter:
    """Counts the instructions of inputs, over a configuration with a cache that holds all pages."""

    def __init__(self, folder):
        self.path = f"{folder}/config.json"
        write_configuration(self.path, configuration(100, 3600, 10, 100_000))
        # What comes before is often the same.
        self.counted = lru_cache(None)(self.counted_anew)

    def counted_anew(self, command, text):
        return counted([oaihost(), command, self.path], text.encode(), PATIENCE)

    def cost(self, hostile, size):
        """The instructions of the input in that size, and what is answered to it; None where it takes too long."""
        before = hostile.before(size)
        try:
            idle, _ = self.counted(hostile.command, before)
            busy, output = self.counted_anew(hostile.command, before + hostile.write(size))
        except subprocess.TimeoutExpired:
            return None, "has not ended"
        return max(busy - idle, 1), last_answer(hostile.command, output)

    def row(self, hostile):
        """The row of the table, and whether the cost grows faster than it may."""
        small, large = hostile.sizes
        (less, _), (more, answer) = self.cost(hostile, small), self.cost(hostile, large)
        growth = None if less is None or more is None else more / less / (large / small)
        grows = growth is None or growth > MOST
        shown = ["-" if it is None else f"{it:,}" for it in (less, more)]
        told = ("-" if growth is None else f"{growth:.2f}") + " GROWS FASTER" * grows
        return {"input": hostile.name, "small": f"{small:,}", "large": f"{large:,}", "less": shown[0], "more": shown[1], "growth": told, "answer": answer}, grows


def hostile(*parts):
    """Counts what hostile input costs, in instructions, by valgrind's callgrind.

    By `ask` and `trace` the program is given inputs of many kinds, each at two sizes, mostly 1 to 8: the instructions
    that it takes besides to begin, and to answer what comes before, are counted by a run without the input, and left
    out. Of each kind it prints the two sizes, the instructions of both, their ratio over the ratio of the sizes, and
    the last that was answered. That ratio is about 1 where the cost grows as the size, and somewhat more where it grows
    as n log n. An input GROWS FASTER where it is above 1.5, or where a run has not ended within 600 seconds. The last
    line is `N inputs, M grow faster`; the status is 0 where M is 0. PARTS are parts of the kinds' names: only those are
    counted that have one of them. JOBS is how many runs are made side by side, 2 if not set.
    """
    needs("valgrind")
    oaihost()
    kinds = [it for it in all_inputs() if not parts or any(part in it.name for part in parts)]
    with tempfile.TemporaryDirectory(prefix="oaihost-") as folder, ThreadPoolExecutor(JOBS) as pool:
        rows = list(pool.map(Counter(folder).row, kinds))
    print_table(["input", "n", "and n", "instructions", "and", "their ratio over that of n", "answered at last"], [row for row, _ in rows])
    faster = sum(grows for _, grows in rows)
    print(f"{len(rows)} inputs, {faster} grow faster")
    return int(faster > 0)
