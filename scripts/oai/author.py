"""Exchanges at random, each with what `ask` writes for it. That is told by the model, which the author of exchanges runs as it writes: so it asks for
what there is, and follows tokens that were handed out.
"""

import json
import random
from typing import NamedTuple
from urllib.parse import urlencode

from oai.items import DUBLIN_CORE, JOURNAL, any_fields, any_text, configuration, deposit, plain_text
from oai.model import DAY, ITEM_BYTES, Host, encoded_length, read_elements, second_text

START = 1_704_067_200  # 2024-01-01T00:00:00Z

# Moments at the ends of what a line may tell, and beyond what a clock reaches.
FAR = [-(2**63), -1, 0, 999_999_999_999, 2**63 - 1]

SET_SPECS = ["x", "x", "x:y", "x:y", "x:y:z", "xy", "letters", "letters:early", "q:r", "x:"]

# Bytes of stored items about which the store changes what it does: the most that stand in an entry, and full overflow pages.
EDGES = [15_999, 16_000, 16_000, 16_001, 16_983, 16_984, 16_985, 33_368, 33_369, 60_000]

# Deposit lines that are refused for what they say, in most cases; `ID` stands for an identifier.
BAD_LINES = [
    "[", "{}", "null", " \t", '{"delete":1}', '{"delete":"x"}', '{"delete":"ID","x":1}', '{"delete":"ID",}', '{"delete":"x","delete":"ID"}',
    '{"purge":"2024-02-30"}', '{"purge":""}', '{"set":"x:","name":"X"}', '{"set":"n","name":""}', '{"set":"n","name":"\\ufffe"}',
    '{"deposit":"ID","sets":[]}', '{"deposit":"ID","sets":[],"records":{}}', '{"deposit":"ID","sets":[],"records":{"zz":[]}}',
    '{"deposit":"","sets":[],"records":{"oai_dc":[]}}', '{"deposit":"ID","sets":[],"records":{"oai_dc":[["zz","t"]]}}',
    '{"deposit":"ID","sets":["x:"],"records":{}}', '{"deposit":"ID","sets":[],"records":{"oai_dc":[["title","\\u0001"]]}}',
    '{"deposit":"ID","sets":["none"],"records":{"oai_dc":[]}}',
]  # fmt: skip

# The same of puts, of records that are texts, and of texts about records, which `oaihost` takes for no commands, and `oaihostd` for elements.
TEXT_LINES = [
    '{"put":"ID","sets":[],"records":{"oai_dc":[]}}', '{"put":"ID","deposit":"ID","sets":[],"records":{"oai_dc":[]}}', '{"put":1,"sets":[],"records":{}}',
    '{"put":"ID"}', '{"put":"ID","sets":[],"records":{"oai_dc":[]},"about":{}}',
    '{"deposit":"ID","sets":[],"records":{"oai_dc":"<dc/>"}}', '{"deposit":"ID","sets":[],"records":{"oai_dc":"<"}}', '{"deposit":"x","sets":[],"records":{"zz":""}}',
    '{"deposit":"ID","sets":[],"records":{"oai_dc":[["title","T"]]},"about":{"oai_dc":["<a/>"]}}', '{"put":"ID","sets":[],"records":{"oai_dc":[]},"about":[]}',
    '{"deposit":"ID","sets":[],"records":{"oai_dc":[]},"about":{"oai_dc":["<a/>"]}}', '{"deposit":"ID","sets":[],"records":{"oai_dc":[]},"about":{"oai_dc":[]}}',
    '{"deposit":"ID","sets":[],"records":{"oai_dc":[]},"about":{"zz":[]}}', '{"deposit":"ID","sets":[],"records":{"oai_dc":[],"zz":[]},"about":{"zz":["x"]}}',
    '{"deposit":"ID","sets":[],"records":{"oai_dc":"<"},"about":{"oai_dc":["","<b>"]}}', '{"delete":"ID","about":{}}', '{"set":"x","name":"X","about":{}}',
    '{"deposit":"ID","sets":[],"records":{"oai_dc":[]},"about":{"oai_dc":"<a/>"}}', '{"put":"ID","sets":[],"records":{"oai_dc":[]},"about":{"oai_dc":[["a","b"]]}}',
    '{"put":"x","sets":[],"records":{"oai_dc":[["title","T"]]},"about":{"oai_dc":["<a/>","<b></a>"]}}', '{"put":"ID","sets":[],"records":{},"about":null}',
    '{"deposit":"ID","sets":[],"records":{"oai_dc":[["","<dc/>"]]}}', '{"deposit":"ID","sets":["x:"],"records":{"oai_dc":[],"jnl":"<a>&x;</a>"}}',
]  # fmt: skip

# Queries that are no request, or one that is hardly taken for it.
LISTED = "verb=ListIdentifiers&metadataPrefix=oai_dc"
BAD_QUERIES = [
    "", "verb", "verb=%00", "verb=identify", "Verb=Identify", "verb=Identify&verb=Identify", "verb=Identify&set=x", "verb=Identify&=x",
    "verb=Identify?x", "%76erb=%49dentify", "&&verb=Identify&", "verb=ListSets&set=x", "verb=ListSets&resumptionToken=",
    "verb=ListMetadataFormats&identifier=", "verb=ListMetadataFormats&resumptionToken=1.2", "verb=GetRecord&identifier=oai:a:1",
    "verb=GetRecord&identifier=%00&metadataPrefix=oai_dc", "verb=GetRecord&identifier=%0A%22%ff&metadataPrefix=oai_dc",
    "verb=ListRecords", "verb=ListRecords&metadataPrefix=a+b", "verb=ListRecords&metadataPrefix=", "verb=ListRecords&resumptionToken=1.2&set=x",
    "verb=ListIdentifiers&resumptionToken=01.2", "verb=ListIdentifiers&resumptionToken=1.2.", f"{LISTED}&metadataPrefix=oai_dc",
    f"{LISTED}&set=x:", f"{LISTED}&x=%ff%", f"{LISTED}&from=2024-02-30", f"{LISTED}&from=2024-01-01&until=2024-01-01T00:00:00Z",
    f"{LISTED}&from=2024-01-02&until=2024-01-01", f"{LISTED}&from=0000-02-29", f"{LISTED}&until=0000-01-01", f"{LISTED}&until=9999-12-31T23:59:60Z",
]  # fmt: skip

# Exchanges with what is no repository, or by a method that is not taken.
ELSEWHERE = [
    ("GET", "/oai/z", ""), ("GET", "/oai/a/", ""), ("GET", "/oai/%61", ""), ("GET", "/", ""), ("POST", "/deposit/z", "x"), ("PUT", "/oai/a", "x"),
    ("HEAD", "/oai/a?verb=Identify", ""), ("get", "/oai/a?verb=Identify", ""), ("GET", "/deposit/a", ""), ("DELETE", "/deposit/b", ""),
    ("GET", "http://host.example/oai/a?verb=Identify", ""), ("OPTIONS", "*", ""),
]  # fmt: skip

BAD_EXCHANGES = ["x", "1 GET", "+1 GET /oai/a", "1.0 GET /oai/a", " GET /oai/a", "9223372036854775808 GET /oai/a", "\t", "\r"]


class Exchange(NamedTuple):
    moment: int
    method: str
    target: str
    body: str

    def line(self):
        return f"{self.moment} {self.method} {self.target}" + (f" {self.body}" if self.body else "")


class Transcript:
    """Lines of an input, what is written for each, and the number of the one, if any, at which the program stops, with what it says."""

    def __init__(self, lines, answers):
        self.lines, self.answers, self.stop, self.said = lines, answers, None, ""

    def spoil(self, chooser, bad, what):
        """Puts a bad line somewhere in the second half."""
        self.stop = chooser.randrange(len(self.lines) // 2, len(self.lines))
        self.lines.insert(self.stop, chooser.choice(bad))
        self.answers.insert(self.stop, "")
        self.said = f"line {self.stop + 1}: bad {what}\n"

    def input(self, count):
        return "".join(it + "\n" for it in self.lines[:count])

    def outcome(self, count):
        """The output, the status and the message for the first lines."""
        if self.stop is None or count <= self.stop:
            return "".join(self.answers[:count]), 0, ""
        return "".join(self.answers[: self.stop]), 1, self.said


def three_repositories(chooser):
    """A configuration of three repositories, of each policy and both granularities, with small limits. Its cache is not yet said."""

    def one(name, **others):
        made = configuration(
            chunk=chooser.choice([1, 2, 2, 3, 7]),
            lifetime=chooser.choice([10, 60]),
            lists=chooser.choice([1, 1, 2, 4]),
            items=chooser.choice([2, 5, 1000] if name == "c" else [20, 1000]),
        )
        return made["repositories"][0] | {"name": name} | others

    by_day = {"granularity": "days", "earliestDatestamp": "2024-01-01"}
    repositories = [one("a"), one("b", deletedRecord="no", formats=[], **by_day), one("c", deletedRecord="transient", formats=[])]
    return {"base": "http://host.example", "repositories": repositories}


class Author:
    """Writes exchanges at random, and knows by the model what they are answered. Where it has texts, some records are."""

    def __init__(self, seed, has_texts=False):
        self.chooser, self.bad_lines = random.Random(seed), BAD_LINES + (TEXT_LINES if has_texts else [])
        self.configuration = three_repositories(self.chooser)
        self.host = Host(self.configuration)
        self.moment = START
        self.goes_far = self.chance(0.1)
        self.identifiers = self.choice([8, 40, 150])
        self.large = self.choice([0.1, 0.3, 0.7])

    def chance(self, share):
        return self.chooser.random() < share

    def choice(self, them):
        return self.chooser.choice(them)

    def pass_time(self):
        """Moments stand still, rise a little, by about a lifetime or by a day, to the end of an open list, or fall."""
        ends = [held.end for it in self.host.repositories.values() for held in it.lists.values()]
        if ends and self.chance(0.03):
            self.moment = self.choice(ends) + self.choice([-1, 0, 0, 1])
            return
        steps = [0] * 10 + [1] * 4 + [self.chooser.randrange(5, 80), -self.chooser.randrange(200)]
        self.moment += DAY if self.chance(0.01) else self.choice(steps)

    def exchange(self, is_late):
        self.pass_time()
        moment = self.choice(FAR) if is_late and self.goes_far and self.chance(0.1) else self.moment
        repository = self.host.repositories[self.chooser.choices("abc", [6, 2, 2])[0]]
        make = self.chooser.choices(list(KINDS), list(KINDS.values()))[0]
        return Exchange(moment, *make(self, repository))

    # ---- deposits

    def posted(self, repository, line):
        return "POST", f"/deposit/{repository.name}", json.dumps(line, ensure_ascii=self.chance(0.5))

    def identifier(self, repository):
        return f"oai:{repository.name}:{self.chooser.randrange(self.identifiers)}"

    def deposit(self, repository):
        records = {"oai_dc": any_fields(self.chooser, DUBLIN_CORE)}
        if self.chance(0.4) and "jnl" in repository.formats:
            records["jnl"] = any_fields(self.chooser, JOURNAL["fields"])
        known = list(repository.sets)
        sets = self.chooser.choices(known, k=self.chooser.randrange(4)) if known else []
        line = deposit(self.identifier(repository), sets, records)
        if self.chance(self.large):
            records["oai_dc"].append(["description", plain_text(self.chooser, self.chooser.randrange(2300))])
        elif self.chance(0.1):
            self.fill(repository, line, ITEM_BYTES + self.choice([-1, 0, 0, 1]) if self.chance(0.05) else self.choice(EDGES))
        return self.posted(repository, line)

    def fill(self, repository, line, most):
        """Adds a field with which the item has just so many bytes as it is stored."""
        field = ["title", ""]
        line["records"]["oai_dc"].append(field)
        field[1] = "t" * (most - encoded_length(repository.item_of(line | {"records": read_elements(line["records"], {})})))

    def delete(self, repository):
        known = list(repository.items)
        return self.posted(repository, {"delete": self.choice(known) if known and self.chance(0.8) else self.identifier(repository)})

    def purge(self, repository):
        purged = self.host.repositories["c"] if self.chance(0.8) else repository
        return self.posted(purged, {"purge": self.bound(purged) if self.chance(0.9) else "2024-02-30"})

    def add_set(self, repository):
        return self.posted(repository, {"set": self.choice(SET_SPECS), "name": any_text(self.chooser)})

    def bad_line(self, repository):
        return "POST", f"/deposit/{repository.name}", self.choice(self.bad_lines).replace("ID", self.identifier(repository))

    # ---- requests

    def asked(self, repository, arguments):
        pairs = list(arguments.items())
        self.chooser.shuffle(pairs)
        return self.sent(repository, urlencode(pairs, safe=self.choice(["", ":"])))

    def sent(self, repository, query):
        if self.chance(0.2):
            return "POST", f"/oai/{repository.name}{self.choice(['', '?verb=Identify'])}", query
        return "GET", f"/oai/{repository.name}?{query}", "verb=Identify" if self.chance(0.02) else ""

    def bound(self, repository):
        """A bound near a stamp that there is, or near the clock: mostly as fine as the repository's."""
        near = self.choice([repository.clock, *(it.stamp for it in repository.items.values())]) + self.choice([-1, 0, 0, 1, 10])
        is_day = repository.is_by_day != self.chance(0.15)
        return second_text(near)[: 10 if is_day else 20]

    def begin_list(self, repository):
        prefix = self.chooser.choices(["oai_dc", "jnl", "zz", "z" * 65], [80, 15, 4, 1])[0]
        arguments = {"verb": self.choice(["ListIdentifiers", "ListRecords"]), "metadataPrefix": prefix}
        for name in ("from", "until"):
            if self.chance(0.2):
                arguments[name] = self.bound(repository)
        if self.chance(0.2):
            arguments["set"] = self.choice(SET_SPECS[:-1])
        return self.asked(repository, arguments)

    def resume(self, repository):
        """A token of an open list, mostly the last that was handed out; or one of small numbers; at times of the other verb."""
        verb, token = self.choice(["ListIdentifiers", "ListRecords"]), f"{self.chooser.randrange(6)}.{self.chooser.randrange(8)}"
        holding = [it for it in self.host.repositories.values() if it.lists]
        if holding and self.chance(0.85):
            repository = self.choice(holding)
            held = self.choice(list(repository.lists.values()))
            chunk = repository.settings["chunk"]
            cursor = held.given if self.chance(0.7) else chunk * self.chooser.randrange(held.given // chunk + 2)
            verb, token = held.verb if self.chance(0.95) else verb, f"{held.number}.{cursor}"
        return self.asked(repository, {"verb": verb, "resumptionToken": token})

    def get(self, repository):
        prefix = self.chooser.choices(["oai_dc", "jnl", "zz"], [6, 3, 1])[0]
        return self.asked(repository, {"verb": "GetRecord", "identifier": self.identifier(repository), "metadataPrefix": prefix})

    def others(self, repository):
        arguments = {"verb": self.choice(["Identify", "ListSets", "ListMetadataFormats"])}
        if arguments["verb"] == "ListMetadataFormats" and self.chance(0.7):
            arguments["identifier"] = self.identifier(repository)
        return self.asked(repository, arguments)

    def bad_query(self, repository):
        return self.sent(repository, self.choice(BAD_QUERIES))

    def elsewhere(self, _):
        return self.choice(ELSEWHERE)


# How often each kind of exchange is written, of a hundred.
KINDS = {
    Author.deposit: 32, Author.delete: 6, Author.purge: 3, Author.add_set: 5, Author.bad_line: 4, Author.begin_list: 14,
    Author.resume: 19, Author.get: 6, Author.others: 5, Author.bad_query: 4, Author.elsewhere: 2,
}  # fmt: skip


def as_asked(status, seconds, body):
    """An answer as `ask` writes it."""
    return f"{status}{'' if seconds is None else f' {seconds}'}\n{body}"


def asked_script(author, count):
    """So many exchanges, and the transcript of them for `ask`."""
    exchanges, lines, answers = [], [], []
    while len(exchanges) < count:
        it = author.exchange(is_late=len(exchanges) * 4 > count * 3)
        answer = author.host.exchange(*it)
        exchanges.append(it)
        lines.append(it.line())
        answers.append(as_asked(answer.status, answer.seconds, answer.body))
    script = Transcript(lines, answers)
    if author.chance(0.05):
        script.lines.insert(count // 2, "")
        script.answers.insert(count // 2, "")
    if author.chance(0.1):
        script.spoil(author.chooser, BAD_EXCHANGES, "exchange")
    return exchanges, script
