"""A configuration, texts and items that are generated, and the lines that deposit them.

What is generated comes from a generator of random numbers that the caller makes from a fixed seed, so it is the same in each run.
"""

import itertools
import json
import random
import re

NAME = "archive"

EARLIEST = "2024-01-01T00:00:00Z"

JOURNAL = {
    "prefix": "jnl",
    "schema": "http://host.example/jnl.xsd",
    "namespace": "http://host.example/jnl/",
    "root": "article",
    "fields": ["volume", "pages"],
}

# What may stand about a record: a right, and where it comes from, by the guidelines of the OAI, with a comment, and a prefix or none.
RIGHTS = (
    '<rights xmlns="http://www.openarchives.org/OAI/2.0/rights/" xmlns:xsi="http://www.w3.org/2001/XMLSchema-instance" xsi:schemaLocation='
    '"http://www.openarchives.org/OAI/2.0/rights/ http://www.openarchives.org/OAI/2.0/rights.xsd"><!-- free -->\n'
    '<rightsReference ref="http://creativecommons.org/licenses/by/4.0/"/></rights>'
)
PROVENANCE = (
    '<p:provenance xmlns:p="http://www.openarchives.org/OAI/2.0/provenance">\n<p:originDescription harvestDate="2002-02-02T14:10:02Z" altered="true">'
    "<p:baseURL>http://origin.example/oai</p:baseURL><p:identifier>oai:origin.example:1</p:identifier><p:datestamp>2002-01-01</p:datestamp>"
    "<p:metadataNamespace>http://www.openarchives.org/OAI/2.0/oai_dc/</p:metadataNamespace></p:originDescription></p:provenance>"
)

DUBLIN_CORE = (
    "title creator subject description publisher contributor date type format identifier source language relation coverage rights"
).split()

PLAIN = "archive journal letter thesis index volume library record harvest catalogue of the on and between two three century".split()

# Texts that a document must escape, or that look like what it is made of.
SPECIAL = ["&", "<", ">", '"', "'", "]]>", "&amp;", "&#13;", "<!--", "-->", "<?x ?>", "</dc:title>", "\t", "\n", "\r", "\r\n", "  "]

# Texts beside ASCII: of one to four bytes a character, of both directions, with marks that join, and characters that few expect.
FOREIGN = ["é", "ß", "Łódź", "Ελλάδα", "Привет", "日本語", "العربية", "עברית", "e\u0301", "\u00a0", "\u2028", "\ufffd", "\x7f", "𝔘", "😀"]


def configuration(chunk, lifetime, lists, items):
    """A configuration of one repository, with a format beside Dublin Core."""
    repository = {
        "name": NAME,
        "repositoryName": "A generated archive",
        "adminEmail": ["a@host.example"],
        "earliestDatestamp": EARLIEST,
        "deletedRecord": "persistent",
        "granularity": "seconds",
        "chunk": chunk,
        "lifetime": lifetime,
        "lists": lists,
        "items": items,
        "formats": [JOURNAL],
    }
    return {"base": "http://host.example", "cache": 4096, "repositories": [repository]}


def plain_text(chance, words):
    return " ".join(chance.choices(PLAIN, k=words))


def any_text(chance):
    """A text of up to eight words, which may be none, may have special ones among them, and need not have spaces between them."""
    words = chance.choices(PLAIN + SPECIAL + FOREIGN, k=chance.randrange(9))
    return chance.choice(["", " "]).join(words)


def any_fields(chance, names):
    """Up to eight fields, in any order, some of one name."""
    return [[chance.choice(names), any_text(chance)] for _ in range(chance.randrange(9))]


def deposit(identifier, sets, records):
    """The line that deposits an item, before it is written as JSON."""
    return {"deposit": identifier, "sets": sets, "records": records}


def body_of(lines):
    """The body of a message that has these lines."""
    return "".join(json.dumps(it, ensure_ascii=False) + "\n" for it in lines).encode()


# ---- an archive of items of one kind, for measurements

SEED = 21

# How many lines a body has: each line is below 2 kB, and a body may have 1 MiB.
BODY = 500

# How many records an answer has.
CHUNK = 100

# How many letters the description of an item has: its record has some 1,600 bytes of XML, from <record> to </record>.
DESCRIPTION = 940

# The set in which every tenth item is.
SET = "tenth"

LISTED = "metadataPrefix=oai_dc"

TOKEN = re.compile(rb"<resumptionToken [^>]*>([^<]+)</resumptionToken>")


def identifier_of(number):
    return f"oai:host.example:{number:06}"


def item(number, version=0, sets=()):
    """The line of an item, in one of its versions: the same whenever it is asked for."""
    chance = random.Random(SEED * 1_000_000_000_000 + version * 1_000_000 + number)
    fields = {
        "title": plain_text(chance, 8),
        "creator": plain_text(chance, 2),
        "subject": plain_text(chance, 2),
        "description": plain_text(chance, 200)[:DESCRIPTION],
        "date": "2024",
        "type": "article",
    }
    return deposit(identifier_of(number), list(sets), {"oai_dc": list(fields.items())})


def in_set(number, version=0):
    """The same, where every tenth item is in a set."""
    return item(number, version, [SET] if number % 10 == 0 else [])


def bodies_of(lines):
    """The bodies of messages that have these lines, BODY each."""
    lines = iter(lines)
    while part := list(itertools.islice(lines, BODY)):
        yield body_of(part)
