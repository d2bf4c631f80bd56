"""A file of deposit lines that is generated: which of them a server refuses, and what it holds once all were sent."""

import json

from oai.items import DUBLIN_CORE, JOURNAL, any_fields, deposit, identifier_of, item
from oai.model import shown_sets

# The most bytes of a message, and the most sets of a repository (docs/OPERATIONS.md).
LIMIT = 2_097_152
MOST_SETS = 10_000

SETS = {"theses": "Theses & Dissertations", "theses:law": "<Law>", "theses:law:canon": 'Canon "law"', "letters": "Lettres, письма, 手紙"}

EMPTY = {"oai_dc": []}

# A record that is an element, in canonical text, as a dump has it.
ELEMENT = '<article xmlns="http://host.example/jnl/"><volume n="1">&lt;7&gt; 手紙</volume></article>'

# An element about a record, in canonical text.
ABOUT = '<rights xmlns="http://host.example/rights/" xml:lang="en">Free &amp; open: 手紙</rights>'


def dumped(command):
    """A line as it is compared: members and sets in their order, nothing between them."""
    command = command | ({"sets": sorted(command["sets"])} if "sets" in command else {})
    return json.dumps(command, ensure_ascii=False, sort_keys=True, separators=(",", ":")) + "\n"


# What is wrong in itself, by the words of its refusal: lines, or commands that are written as JSON.
WRONG = {
    "1 bad-json": [b'{"deposit":', b'{"delete":"oai:host.example:\xff"}', b"delete oai:host.example:1", b'\xef\xbb\xbf{"delete":"oai:host.example:1"}'],
    "2 bad-command": [
        {"remove": "oai:x:1"}, {"delete": "oai:x:1", "sets": []}, deposit("oai:x:1", [], {"oai_dc": [["title"]]}),
        deposit("oai:x:1", [], EMPTY) | {"about": {"jnl": []}}, deposit("oai:x:1", [], EMPTY) | {"about": {"oai_dc": ABOUT}},
    ],
    "3 bad-identifier": [deposit("x", [], EMPTY), {"delete": "oai:a b"}],
    "4 bad-set-spec": [deposit("oai:x:1", ["theses:"], EMPTY), {"set": "a b", "name": "A"}],
    "5 bad-text": [deposit("oai:x:1", [], {"oai_dc": [["title", "\u0001"]]}), {"set": "unnamed", "name": ""}],
    "6 unknown-set": [deposit("oai:x:1", ["nowhere"], EMPTY)],
    "7 unknown-format": [deposit("oai:x:1", [], EMPTY | {"marc": []})],
    "8 no-dc": [deposit("oai:x:1", [], {"jnl": []}), deposit("oai:x:1", [], {})],
    "9 unknown-field": [deposit("oai:x:1", [], {"oai_dc": [["headline", "x"]]})],
    "20 bad-xml 3": [
        deposit("oai:x:1", [], EMPTY | {"jnl": "<a>"}), deposit("oai:x:1", [], {"oai_dc": " <a"}),
        deposit("oai:x:1", [], {"oai_dc": [["title", "x"]], "jnl": ELEMENT}) | {"about": {"oai_dc": ["<"], "jnl": [ABOUT, "<a>"]}},
    ],
    "21 not-of-format": [
        deposit("oai:x:1", [], EMPTY | {"jnl": "<article/>"}), deposit("oai:x:1", [], {"oai_dc": "<dc/>"}), deposit("oai:x:1", [], EMPTY) | {"about": {"oai_dc": [ABOUT]}},
    ],
    "11 too-large": [deposit("oai:x:1", [], {"oai_dc": [["title", "x" * 1_048_576]]})],
    "13 no-such-item": [{"delete": "oai:x:1"}],
    "15 not-transient": [{"purge": "2024-12-31"}],
    "18 no-parent": [{"set": "nowhere:inner", "name": "Inner"}],
}


class Export:
    """A file of lines for an empty repository of so many items at most, which stays persistent; a generator of random numbers makes it."""

    def __init__(self, path, chance, most):
        self.chance, self.most = chance, most
        self.file = open(path, "wb")
        # how many lines it has; the numbers of those that can be sent, and of those that say what is so already; how many are too long
        self.count, self.sent, self.known, self.too_long = 0, [], [], 0
        # the words of refusals, by the numbers of lines
        self.refused = {}
        # what the repository then holds: sets, and items in the lines that a dump has of them
        self.sets, self.items, self.deleted = {}, {}, set()

    def write(self, command, refusal=None):
        """Adds a line; one that is refused with these words changes nothing."""
        if not isinstance(command, bytes):
            command = json.dumps(command, ensure_ascii=self.chance.random() < 0.5).encode()
        self.count += 1
        self.file.write(command + b"\n")
        if len(command) <= LIMIT and command.strip():
            self.sent.append(self.count)
        if refusal:
            self.refused[self.count] = refusal

    def write_set(self, spec, name):
        self.write({"set": spec, "name": name})
        self.sets[spec] = name

    def write_item(self, number):
        """Adds an item, or another state of it."""
        line = item(number, version=self.count)
        line["sets"] = self.chance.choices(list(SETS), k=self.chance.randrange(3))
        records = line["records"]
        if number % 7 == 0:
            records["jnl"] = any_fields(self.chance, JOURNAL["fields"])
        if number % 13 == 0:
            records["jnl"] = ELEMENT
        if number % 11 == 0:
            records["oai_dc"] += any_fields(self.chance, DUBLIN_CORE)
        if number % 17 == 0:
            line["about"] = {prefix: [ABOUT] * self.chance.randrange(1, 3) for prefix, fields in records.items() if fields}
        self.write(line)
        self.items[line["deposit"]] = dumped(line | {"sets": shown_sets(line["sets"])})
        self.deleted.discard(line["deposit"])

    def write_deletion(self, identifier):
        self.write({"delete": identifier})
        self.deleted.add(identifier)

    def write_wrong(self, words):
        """Adds a line that is refused with these words."""
        self.write(self.chance.choice(WRONG[words]), f"refused {words}")

    def write_known(self, command):
        """Adds a line that is refused since it says what is so already."""
        self.write(command)
        self.known.append(self.count)

    def write_too_long(self):
        """Adds a line that no message can have."""
        line = json.dumps(deposit("oai:x:1", [], {"oai_dc": [["title", "x" * LIMIT]]})).encode()
        self.write(line, f"has {len(line):,} bytes, more than {LIMIT:,}: it is not sent")
        self.too_long += 1

    def write_archive(self):
        """Adds sets, and as many items as there may be."""
        for spec, name in SETS.items():
            self.write_set(spec, name)
        for number in range(self.most):
            self.write_item(number)
        self.file.close()

    def fill(self):
        """Adds as many sets as there may be, as many items as there may be, and one more of each, with wrong lines between."""
        for spec, name in SETS.items():
            self.write_set(spec, name)
        for number in range(MOST_SETS - len(SETS)):
            self.write_set(f"more-{number}", f"More {number}")
        self.write({"set": "one-more", "name": "One more"}, "refused 19 too-many-sets")
        for number in range(self.most):
            self.write_item(number)
            if self.chance.random() < 0.05:
                self.disturb(number)
        for words in WRONG:
            self.write_wrong(words)
        self.write(deposit("oai:x:1", [], EMPTY), "refused 12 too-many-items")
        self.file.close()

    def disturb(self, last):
        """Adds a line of another kind behind an item."""
        number = self.chance.randrange(last + 1)
        identifier = identifier_of(number)
        lines = [
            lambda: self.write_item(number),
            lambda: self.write_known({"delete": identifier}) if identifier in self.deleted else self.write_deletion(identifier),
            lambda: self.write_known({"set": "letters", "name": "Another name"}),
            lambda: self.write(deposit(identifier_of(number // 7 * 7), [], EMPTY), "refused 10 drops-format"),
            lambda: self.write_wrong(self.chance.choice([it for it in WRONG if it != "11 too-large"])),
            lambda: self.write(self.chance.choice([b"", b" ", b"\t \r"])),
        ]
        weights = [8, 8, 1, 1, 4, 1]
        self.chance.choices(lines, weights)[0]()
        if self.chance.random() < 0.002:
            self.chance.choice([self.write_too_long, lambda: self.write_wrong("11 too-large")])()

    def dump(self):
        """The lines of a dump, as they are compared."""
        for spec, name in self.sets.items():
            yield dumped({"set": spec, "name": name})
        for identifier, line in self.items.items():
            if identifier in self.deleted:
                line = json.loads(line)
                yield dumped(deposit(identifier, line["sets"], dict.fromkeys(line["records"], [])))
                yield dumped({"delete": identifier})
            else:
                yield line
