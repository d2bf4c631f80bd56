"""Shows where `oaihostd` says that a configuration, a deposit line or an XML element is wrong."""

import json
import pathlib
import subprocess
import tempfile

from oai.programs import oaihostd
from oai.trials import Trial

CONFIG = """\
{"base":"http://host.example","cache":16,
 "repositories":[
  {"name":"a","repositoryName":"Archive A","adminEmail":["a@host.example"],
   "earliestDatestamp":"2024-01-01T00:00:00Z","deletedRecord":"persistent",
   "granularity":"seconds","chunk":100,"lifetime":3600,"lists":10,"items":1000,
   "formats":[
    {"prefix":"jnl","schema":"http://host.example/jnl.xsd",
     "namespace":"http://host.example/jnl/","root":"article",
     "fields":["volume","pages"]}]},
  {"name":"theses","repositoryName":"Theses","adminEmail":["t@host.example"],
   "earliestDatestamp":"2024-01-01","deletedRecord":"transient",
   "granularity":"days","chunk":200,"lifetime":7200,"lists":20,"items":2000,"formats":[]}]}
"""

# The same with a format whose records are elements.
WHOLE = CONFIG.replace(',\n     "fields":["volume","pages"]', "")

# The second repository, as it stands in one line.
SECOND = '{"name":"b","repositoryName":"B","adminEmail":["b@host.example"],"earliestDatestamp":"2024-01-01","deletedRecord":"no",\
"granularity":"days","chunk":1,"lifetime":1,"lists":1,"items":1,"formats":[]}'

SHORT = "is empty, longer than 512 bytes, or has a character that XML forbids"
URI = "is empty, longer than 512 bytes, or has a blank or a character that XML forbids"
NAME = "is not a letter or _, and at most 63 letters, digits and -_. behind it"
PREFIX = "is not 1 to 64 letters, digits and -_.!~*'()"
SECONDS = 'is no date such as 2024-01-01T00:00:00Z, as the granularity is "seconds"'
DAYS = 'is no date such as 2024-01-01, as the granularity is "days"'
YEARS = "is not of the years 0001 to 9998"

# What is written in place of what, where it stands first, and what is then reported behind the number and the name.
SHAPES = [
    ('"base":"http://host.example",', "", 'line 1: member "base" is missing'),
    ('"cache":16,\n', "\n", 'line 1: member "cache" is missing'),
    ('"cache":16', '"cache":16,"pages":16', 'line 1: "pages" is no member that is known here'),
    ('"http://host.example"', "1", 'line 1: "base" is a number, and not a text'),
    ('"http://host.example"', '""', f'line 1: "base" {SHORT}'),
    ('"http://host.example"', f'"{"b" * 513}"', f'line 1: "base" {SHORT}'),
    ('"http://host.example"', '"http://host\\u0001"', f'line 1: "base" {SHORT}'),
    (":16,", ':"16",', 'line 1: "cache" is a text, and not a number'),
    ('"name":"a",', "", 'line 3: repositories[0]: member "name" is missing'),
    ('"name":"a"', '"name":null', 'line 3: repositories[0]: "name" is null, and not a text'),
    ('"repositoryName":"Theses",', "", 'line 10: repositories[1] (theses): member "repositoryName" is missing'),
    ('"Theses"', "true", 'line 10: repositories[1] (theses): "repositoryName" is true or false, and not a text'),
    ('"Theses"', '""', f'line 10: repositories[1] (theses): "repositoryName" {SHORT}'),
    ('"adminEmail":["a@host.example"],', "", 'line 3: repositories[0] (a): member "adminEmail" is missing'),
    ('["a@host.example"]', '"a@host.example"', 'line 3: repositories[0] (a): "adminEmail" is a text, and not a list'),
    ('["a@host.example"]', "[]", 'line 3: repositories[0] (a): "adminEmail" does not have 1 to 16 addresses'),
    ('["a@host.example"]', json.dumps(["a"] * 17), 'line 3: repositories[0] (a): "adminEmail" does not have 1 to 16 addresses'),
    ('["a@host.example"]', '["a",\n"b",\n{}]', "line 5: repositories[0] (a): adminEmail[2] is an object, and not a text"),
    ('["a@host.example"]', '["a",\n""]', f"line 4: repositories[0] (a): adminEmail[1] {SHORT}"),
    ('"earliestDatestamp":"2024-01-01",', "", 'line 10: repositories[1] (theses): member "earliestDatestamp" is missing'),
    ('"2024-01-01"', "20240101", 'line 11: repositories[1] (theses): "earliestDatestamp" is a number, and not a text'),
    ('"deletedRecord":"persistent",', "", 'line 3: repositories[0] (a): member "deletedRecord" is missing'),
    ('"persistent"', '"yes"', 'line 4: repositories[0] (a): "deletedRecord" is none of "no", "transient" and "persistent"'),
    ('"persistent"', "false", 'line 4: repositories[0] (a): "deletedRecord" is true or false, and not a text'),
    ('"granularity":"seconds",', "", 'line 3: repositories[0] (a): member "granularity" is missing'),
    ('"seconds"', '"day"', 'line 5: repositories[0] (a): "granularity" is none of "days" and "seconds"'),
    ('"seconds"', "[]", 'line 5: repositories[0] (a): "granularity" is a list, and not a text'),
    ('"chunk":100,', '"chunk":100,"description":"<a/>",', 'line 5: repositories[0] (a): "description" is a text, and not a list'),
    ('"chunk":100,', '"chunk":100,"description":[1],', "line 5: repositories[0] (a): description[0] is a number, and not a text"),
    (
        '"chunk":100,',
        '"chunk":100,"description":["<a/>","<b><c></b>"],',
        "line 5: repositories[0] (a): description[1] is no XML element, at its byte 8: the end tag has not the name of its start tag",
    ),
    ('"chunk":100,', '"chunk":100,"sets":[],', 'line 5: repositories[0] (a): "sets" is a list, and not an object'),
    ('"chunk":100,', '"chunk":100,"sets":{"x":1},', 'line 5: repositories[0] (a): "sets" "x" is a number, and not a list'),
    ('"chunk":100,', '"chunk":100,"sets":{"x":["<a>"]},', 'line 5: repositories[0] (a): "sets" "x" has what is no text of an XML element'),
    ('"chunk":100,', "", 'line 3: repositories[0] (a): member "chunk" is missing'),
    ('"chunk":100', '"chunk":"100"', 'line 5: repositories[0] (a): "chunk" is a text, and not a number'),
    ('"lifetime":3600,', "", 'line 3: repositories[0] (a): member "lifetime" is missing'),
    ('"lifetime":3600', '"lifetime":[]', 'line 5: repositories[0] (a): "lifetime" is a list, and not a number'),
    ('"lists":10,', "", 'line 3: repositories[0] (a): member "lists" is missing'),
    ('"lists":10', '"lists":{}', 'line 5: repositories[0] (a): "lists" is an object, and not a number'),
    ('"items":1000,', "", 'line 3: repositories[0] (a): member "items" is missing'),
    ('"items":1000', '"items":null', 'line 5: repositories[0] (a): "items" is null, and not a number'),
    (',"formats":[]', "", 'line 10: repositories[1] (theses): member "formats" is missing'),
    (',"formats":[]', ',"formats":{}', 'line 12: repositories[1] (theses): "formats" is an object, and not a list'),
    (',"formats":[]', ',"formats":["jnl"]', "line 12: repositories[1] (theses): formats[0]: it is a text, and not an object"),
    ('"theses",', '"theses","Chunk":1,', 'line 10: repositories[1] (theses): "Chunk" is no member that is known here'),
    ('"prefix":"jnl",', "", 'line 7: repositories[0] (a): formats[0]: member "prefix" is missing'),
    ('"jnl"', "1", 'line 7: repositories[0] (a): formats[0]: "prefix" is a number, and not a text'),
    ('"prefix":"jnl"', '"prefix":"jnl","more":1', 'line 7: repositories[0] (a): formats[0]: "more" is no member that is known here'),
    ('"http://host.example/jnl.xsd"', "[]", 'line 7: repositories[0] (a): formats[0]: "schema" is a list, and not a text'),
    ('"http://host.example/jnl/"', "null", 'line 8: repositories[0] (a): formats[0]: "namespace" is null, and not a text'),
    (',"root":"article"', "", 'line 7: repositories[0] (a): formats[0]: member "root" is missing'),
    ('"article"', "2", 'line 8: repositories[0] (a): formats[0]: "root" is a number, and not a text'),
    ('["volume","pages"]', '"volume"', 'line 9: repositories[0] (a): formats[0]: "fields" is a text, and not a list'),
    ('["volume","pages"]', '["volume",\n7]', "line 10: repositories[0] (a): formats[0]: fields[1] is a number, and not a text"),
    ('["volume","pages"]', "[]", 'line 9: repositories[0] (a): formats[0]: "fields" is empty: a format whose records are elements has no such member'),
]

NAMES = [
    ('"name":"a"', '"name":""', 'line 3: repositories[0]: "name" is not 1 to 32 of a to z, 0 to 9 and -'),
    ('"name":"a"', f'"name":"{"a" * 33}"', f'line 3: repositories[0] ({"a" * 33}): "name" is not 1 to 32 of a to z, 0 to 9 and -'),
    ('"name":"theses"', '"name":"The"', 'line 10: repositories[1] (The): "name" is not 1 to 32 of a to z, 0 to 9 and -'),
]

FORMATS = [
    ('"jnl"', '""', f'line 7: repositories[0] (a): formats[0]: "prefix" {PREFIX}'),
    ('"jnl"', '"j n"', f'line 7: repositories[0] (a): formats[0]: "prefix" {PREFIX}'),
    ('"jnl"', f'"{"j" * 65}"', f'line 7: repositories[0] (a): formats[0]: "prefix" {PREFIX}'),
    ('"jnl"', '"oai_dc"', 'line 7: repositories[0] (a): formats[0]: "prefix" is the prefix of another format, or oai_dc'),
    ('"http://host.example/jnl.xsd"', '"a b"', f'line 7: repositories[0] (a): formats[0]: "schema" {URI}'),
    ('"http://host.example/jnl/"', '""', f'line 8: repositories[0] (a): formats[0]: "namespace" {URI}'),
    ('"article"', '"1article"', f'line 8: repositories[0] (a): formats[0]: "root" {NAME}'),
    ('"article"', f'"{"r" * 65}"', f'line 8: repositories[0] (a): formats[0]: "root" {NAME}'),
    ('["volume","pages"]', json.dumps([f"f{it}" for it in range(257)]), 'line 9: repositories[0] (a): formats[0]: "fields" has more than 256 names'),
    ('["volume","pages"]', '["volume",\n"pa:ges"]', f"line 10: repositories[0] (a): formats[0]: fields[1] {NAME}"),
    ('["volume","pages"]', '["volume",\n"volume"]', "line 10: repositories[0] (a): formats[0]: fields[1] stands twice"),
]  # fmt: skip

DATES = [
    ('"2024-01-01T00:00:00Z"', '"2024-01-01"', f'line 4: repositories[0] (a): "earliestDatestamp" {SECONDS}'),
    ('"2024-01-01T00:00:00Z"', '"2024-01-01 00:00:00"', f'line 4: repositories[0] (a): "earliestDatestamp" {SECONDS}'),
    ('"2024-01-01T00:00:00Z"', '"9999-01-01T00:00:00Z"', f'line 4: repositories[0] (a): "earliestDatestamp" {YEARS}'),
    ('"2024-01-01"', '"2024-01-01T00:00:00Z"', f'line 11: repositories[1] (theses): "earliestDatestamp" {DAYS}'),
    ('"2024-01-01"', '"2023-02-29"', f'line 11: repositories[1] (theses): "earliestDatestamp" {DAYS}'),
    ('"2024-01-01"', '"0000-01-01"', f'line 11: repositories[1] (theses): "earliestDatestamp" {YEARS}'),
]

NUMBERS = [
    ('"cache":16', '"cache":0', 'line 1: "cache" is no whole number from 1 to 65536'),
    ('"cache":16', '"cache":65537', 'line 1: "cache" is no whole number from 1 to 65536'),
    ('"chunk":100', '"chunk":0', 'line 5: repositories[0] (a): "chunk" is no whole number from 1 to 1000'),
    ('"chunk":100', '"chunk":1001', 'line 5: repositories[0] (a): "chunk" is no whole number from 1 to 1000'),
    ('"chunk":100', '"chunk":2.0', 'line 5: repositories[0] (a): "chunk" is no whole number from 1 to 1000'),
    ('"chunk":100', '"chunk":1e2', 'line 5: repositories[0] (a): "chunk" is no whole number from 1 to 1000'),
    ('"chunk":200', '"chunk":-1', 'line 12: repositories[1] (theses): "chunk" is no whole number from 1 to 1000'),
    ('"lifetime":7200', '"lifetime":31536001', 'line 12: repositories[1] (theses): "lifetime" is no whole number from 1 to 31536000'),
    ('"lists":20', '"lists":10001', 'line 12: repositories[1] (theses): "lists" is no whole number from 1 to 10000'),
    ('"items":2000', '"items":1000001', 'line 12: repositories[1] (theses): "items" is no whole number from 1 to 1000000'),
]

# The first of two members of one name is passed over: the place is that of the last one.
TWICE = ('"chunk":100', '"chunk":100,\n"chunk":0', 'line 6: repositories[0] (a): "chunk" is no whole number from 1 to 1000')


class Checks(Trial):
    """Calls `oaihostd check`, and compares what it writes and how it ends."""

    def __init__(self, folder):
        super().__init__()
        self.folder = pathlib.Path(folder)

    def call(self, *arguments):
        """The status, the lines on standard output, and those on standard error."""
        ran = subprocess.run([oaihostd(), *map(str, arguments)], stdin=subprocess.DEVNULL, capture_output=True, check=False, timeout=60)
        return ran.returncode, ran.stdout.decode(), ran.stderr.decode().splitlines()

    def written(self, name, text):
        """The path of a file with the text, or the bytes."""
        path = self.folder / name
        path.write_bytes(text if isinstance(text, bytes) else text.encode())
        return path

    def refused(self, what, text, *wanted):
        """Compares the lines on a configuration that is none, of `check`, and of `serve`, which makes no folder."""
        path = self.written("config.json", text)
        lines = [f"config: {line}" for line in wanted]
        self.check(what, self.call("check", path), (2, "", lines))
        self.check(f"{what}, served", self.call("serve", path, 0, self.folder / "none"), (2, "", lines))
        self.check(f"{what}, folder", (self.folder / "none").exists(), False)

    def each(self, fault, rows):
        """Compares the report on each changed configuration."""
        for old, new, wanted in rows:
            self.expect(old in CONFIG, f"{old} is not in the configuration")
            self.refused(f"{old} -> {new[:60]}", CONFIG.replace(old, new, 1), f"{fault}: {wanted}")


def many(count, repository=SECOND):
    """A configuration of so many repositories, each in a line of its own from the second on."""
    lines = ",\n".join(repository.replace('"name":"b"', f'"name":"r{number}"') for number in range(count))
    return f'{{"base":"http://host.example","cache":16,"repositories":[\n{lines}]}}\n'


def try_configurations(trial):
    """Each fault of a configuration."""
    path = trial.written("config.json", CONFIG)
    trial.check("the configuration", trial.call("check", path), (0, "ok 2\n", []))
    path = trial.written("config.json", WHOLE)
    trial.check("a format without fields", trial.call("check", path), (0, "ok 2\n", []))
    trial.refused("a comma that is missing", CONFIG.replace(":16,", ":16 "), "1 BadJson: line 2, column 2: here the text is no JSON")
    trial.refused("a text that ends", '{"base":', "1 BadJson: line 1, column 9: the text ends too early")
    trial.refused("no text", "", "1 BadJson: line 1, column 1: the text ends too early")
    trial.refused("a number that is too large", CONFIG.replace(":16,", ":1e999,"), "1 BadJson: a number is too large, or the text is nested too deeply")
    trial.refused("a byte order mark", "\ufeff" + CONFIG, "1 BadJson: line 1, column 1: a byte order mark stands before the text")
    trial.refused("a letter of Latin-1", CONFIG.encode().replace(b"Archive", b"Arch\xefve"), "1 BadJson: line 3, column 37: here the text is not in UTF-8")
    trial.refused("a list", "\n[]", "2 BadShape: line 2: it is a list, and not an object")
    trial.refused("no repositories", '{"base":"b","cache":1,\n"repositories":[]}', '2 BadShape: line 2: "repositories" is empty')
    trial.refused("repositories in an object", '{"base":"b","cache":1,\n"repositories":{}}',
                  '2 BadShape: line 2: "repositories" is an object, and not a list')  # fmt: skip
    trial.refused("a repository that is none", many(1, "[]"), "2 BadShape: line 2: repositories[0]: it is a list, and not an object")
    for fault, rows in (("2 BadShape", SHAPES), ("3 BadName", NAMES), ("5 BadFormat", FORMATS), ("6 BadDate", DATES), ("7 BadNumber", [*NUMBERS, TWICE])):
        trial.each(fault, rows)
    trial.refused("two names", CONFIG.replace("theses", "a", 1), '4 DuplicateName: line 10: repositories[1] (a): "name" is the name of another repository')
    trial.refused("1,001 repositories", many(1001), '8 TooMany: line 1: "repositories" has more than 1000 elements')
    path = trial.written("config.json", many(1000))
    trial.check("1,000 repositories", trial.call("check", path), (0, "ok 1000\n", []))
    prefixes = CONFIG.replace('"formats":[]', '"formats":[%s]' % ",\n".join(
        f'{{"prefix":"p{it}","schema":"s:s","namespace":"n:n","root":"r","fields":["f"]}}' for it in range(64)))  # fmt: skip
    trial.refused("64 formats", prefixes, '5 BadFormat: line 12: repositories[1] (theses): "formats" has more than 63 formats')
    trial.refused("two prefixes", prefixes.replace("p63", "p2"), '5 BadFormat: line 12: repositories[1] (theses): "formats" has more than 63 formats',
                  '5 BadFormat: line 75: repositories[1] (theses): formats[63]: "prefix" is the prefix of another format, or oai_dc')  # fmt: skip


def try_several(trial):
    """Several faults: all of the lowest number are reported, 20 at most."""
    text = CONFIG.replace('"cache":16', '"cache":"16"').replace('"Theses"', '""').replace(',"formats":[]', "").replace('"chunk":100', '"chunk":0')
    trial.refused("three of shape and one of a number", text, '2 BadShape: line 1: "cache" is a text, and not a number',
                  '2 BadShape: line 10: repositories[1] (theses): member "formats" is missing',
                  f'2 BadShape: line 10: repositories[1] (theses): "repositoryName" {SHORT}')  # fmt: skip
    twenty = [f'7 BadNumber: line {it + 2}: repositories[{it}] (r{it}): "items" is no whole number from 1 to 1000000' for it in range(20)]
    trial.refused("25 numbers", many(25, SECOND.replace('"items":1', '"items":0')), *twenty)


# ---- lines

SETS = '{"set":"letters","name":"Letters"}'
ITEM = '{"deposit":"oai:a:1","sets":["letters"],"records":{"oai_dc":[["title","On Sets"]],"jnl":[["volume","7"]]}}'

# What is written in place of what in the item, and what is then reported behind the number of the line.
ITEMS = [
    ('"oai:a:1",', '"oai:a:1"', '21: 1 bad-json: here the text is no JSON'),
    ('"oai:a:1"', "1", '12: 2 bad-command: "deposit" is a number, and not a text'),
    ('"sets":["letters"],', "", '1: 2 bad-command: member "sets" is missing'),
    ('{"deposit"', '{"more":1,"deposit"', '9: 2 bad-command: "more" is no member of this command'),
    ('["letters"]', '"letters"', '29: 2 bad-command: "sets" is a text, and not a list'),
    ('["letters"]', '["letters",1]', '40: 2 bad-command: it is a number, and a setSpec is a text'),
    ('{"oai_dc":[["title","On Sets"]],"jnl":[["volume","7"]]}', "[]", '51: 2 bad-command: "records" is a list, and not an object'),
    ('[["title","On Sets"]]', "7", '61: 2 bad-command: "oai_dc" is a number, and neither a list of fields nor an element\'s text'),
    ('[["title","On Sets"]]', '["title","On Sets"]', '62: 2 bad-command: "title" is a text, and a field is a list of two texts'),
    ('["title","On Sets"]', "{}", '62: 2 bad-command: it is an object, and a field is a list of two texts'),
    ('["title","On Sets"]', '["title"]', '62: 2 bad-command: it is another list, and a field is a list of two texts'),
    ('["volume","7"]', '["volume",7]', '90: 2 bad-command: it is another list, and a field is a list of two texts'),
    ('[["title","On Sets"]]', '"On Sets"', '61: 20 bad-xml: at byte 0 of "oai_dc": this cannot stand here'),
    ('[["volume","7"]]', '"<a>&nbsp;</a>"', '89: 20 bad-xml: at byte 4 of "jnl": this is no reference that can be resolved without a document type'),
    ('[["volume","7"]]', '"<article/>"', '89: 21 not-of-format: the root is not "article" of "http://host.example/jnl/"'),
    ('[["title","On Sets"]]', '"<title/>"', '61: 21 not-of-format: the root is not "dc" of "http://www.openarchives.org/OAI/2.0/oai_dc/"'),
    ('"7"]]}}', '"7"]]},"about":[]}', '115: 2 bad-command: "about" is a list, and not an object'),
    ('"7"]]}}', '"7"]]},"about":{"marc":[]}}', '123: 2 bad-command: "marc" is none of the prefixes in "records"'),
    ('"7"]]}}', '"7"]]},"about":{"jnl":"<a/>"}}', '122: 2 bad-command: "jnl" is a text, and not a list of elements\' texts'),
    ('"7"]]}}', '"7"]]},"about":{"jnl":["<a/>",7]}}', "130: 2 bad-command: it is a number, and not an element's text"),
    ('"7"]]}}', '"7"]]},"about":{"jnl":["<a/>","<a>"]}}', '130: 20 bad-xml: at byte 3 of an element about "jnl": the text ends within an element, or before one'),
    ('[["volume","7"]]}}', '[]},"about":{"jnl":["<a/>"]}}', '108: 21 not-of-format: nothing may be about "jnl", which is an empty list in "records"'),
    ('"oai:a:1"', '"a"', '12: 3 bad-identifier: "a" is not a scheme, a colon and characters of a URI, of at most 512 bytes'),
    ('["letters"]', '["letters","a b"]', "40: 4 bad-set-spec: \"a b\" is not parts of letters, digits and -_.!~*'() joined by colons, of at most 256 bytes"),
    ('"On Sets"', '"On\\u0001Sets"', '71: 5 bad-text: the text of "title" has a character that XML forbids'),
    ('["letters"]', '["letters","notes"]', '40: 6 unknown-set: no line before adds the set "notes"'),
    ('"jnl"', '"journal"', '93: 7 unknown-format: the repository has no format "journal"'),
    ('"oai_dc":[["title","On Sets"]],', "", '51: 8 no-dc: there is no record in "oai_dc"'),
    ('"volume"', '"number"', '91: 9 unknown-field: the format "jnl" has no field "number"'),
]

# A list of fields, and an element, of the format.
VOLUME, ARTICLE = '[["volume","7"]]', '"<article xmlns=\\"http://host.example/jnl/\\"><volume n=\\"1\\">7</volume></article>"'

OTHERS = [
    ("[]", '1: 2 bad-command: it is a list, and not an object'),
    ("{}", '1: 2 bad-command: it has no member "deposit", "put", "delete", "purge" or "set"'),
    ('{"put":"oai:a:1","set":"x"}', '1: 2 bad-command: member "sets" is missing'),
    ('{"delete":1}', '11: 2 bad-command: "delete" is a number, and not a text'),
    ('{"delete":"oai:a:1","sets":[]}', '28: 2 bad-command: "sets" is no member of this command'),
    ('{"purge":null}', '10: 2 bad-command: "purge" is null, and not a text'),
    ('{"set":"x"}', '1: 2 bad-command: member "name" is missing'),
    ('{"set":[],"name":"X"}', '8: 2 bad-command: "set" is a list, and not a text'),
    ('{"set":"x","name":2}', '19: 2 bad-command: "name" is a number, and not a text'),
    ('{"delete":"a b"}', '11: 3 bad-identifier: "a b" is not a scheme, a colon and characters of a URI, of at most 512 bytes'),
    ('{"set":"x:","name":"X"}', "8: 4 bad-set-spec: \"x:\" is not parts of letters, digits and -_.!~*'() joined by colons, of at most 256 bytes"),
    ('{"set":"x","name":""}', f'19: 5 bad-text: "name" {SHORT}'),
    ('{"purge":"2024-01-01"}', '10: 15 not-transient: "deletedRecord" is not "transient"'),
    (SETS, "8: 17 set-exists: a line before adds the same set"),
    ('{"set":"x:y","name":"Y"}', "8: 18 no-parent: no line before adds the set above it"),
]


def as_put(text):
    return text.replace('"deposit"', '"put"')


def as_put_cause(cause):
    """What is reported of a put where that is reported of the deposit: nearer by the letters between their names."""
    column, _, why = cause.partition(":")
    return f"{int(column) - (4 if int(column) >= ITEM.index('oai:a:1') else 0)}:{as_put(why)}"


def try_lines(trial):
    """Each refusal that a line has by itself, by the configuration, or by the sets of the lines before it."""
    config = trial.written("config.json", CONFIG)
    about = ITEM.replace('"7"]]}}', '"7"]]},"about":{"oai_dc":[],"jnl":["<a/>","<b/>"]}}')
    good = trial.written("good.jsonl", f"{SETS}\n\n{ITEM}\r\n{as_put(ITEM)}\n{about}\n" + '{"delete":"oai:a:1"}\n')
    trial.check("good lines", trial.call("check", config, good), (0, "ok 2\nrepository a: 5 lines, 0 refused\n", []))
    changed = []
    for old, new, _ in ITEMS:
        trial.expect(old in ITEM, f"{old} is not in the item")
        changed.append(ITEM.replace(old, new, 1))
    changed += [as_put(it) for it in changed]
    text = "\n".join([SETS, "", *changed, *(line for line, _ in OTHERS), ITEM]) + "\n"
    causes = [wanted for _, _, wanted in ITEMS]
    causes += [*map(as_put_cause, causes), *(wanted for _, wanted in OTHERS)]
    wanted = [f"lines:{number}:{cause}" for number, cause in enumerate(causes, 3)]
    said = f"ok 2\nrepository a: {len(causes) + 2} lines, {len(causes)} refused\n"
    found = trial.call("check", config, trial.written("bad.jsonl", text))
    trial.check("bad lines", found[:2], (1, said))
    for line, cause in zip(found[2], wanted):
        trial.check("a line", line, cause)
    trial.check("how many lines", len(found[2]), len(wanted))
    whole = trial.written("whole.json", WHOLE)
    lines = trial.written("whole.jsonl", f"{SETS}\n{ITEM.replace('volume', 'leader')}\n{ITEM.replace(VOLUME, '[]')}\n{ITEM.replace(VOLUME, ARTICLE)}\n")
    found = trial.call("check", whole, lines)
    trial.check("a format without fields: lines", found, (1, "ok 2\nrepository a: 4 lines, 2 refused\n", [
        'lines:2:91: 9 unknown-field: the format "jnl" has no field "leader"',
        'lines:3:89: 21 not-of-format: the format "jnl" has no fields: a record is an element\'s text']))
    latin = trial.written("latin.jsonl", b'{"set":"x","name":"\xef"}\n')
    trial.check("a letter of Latin-1", trial.call("check", config, latin)[2], ["lines:1:20: 1 bad-json: here the text is not in UTF-8"])


def try_repositories(trial):
    """The lines of another repository than the first one."""
    config = trial.written("config.json", CONFIG)
    lines = trial.written("lines.jsonl", '{"purge":"2024-01-01"}\n{"purge":"2024-01-01T00:00:00Z"}\n{"purge":"2024"}\n')
    why = "10: 16 bad-date: it is no day or second, or finer than the datestamps"
    wanted = (1, "ok 2\nrepository theses: 3 lines, 2 refused\n", [f"lines:2:{why}", f"lines:3:{why}"])
    trial.check("purges of a repository of days", trial.call("check", config, lines, "--repository", "theses"), wanted)
    trial.check("no such repository", trial.call("check", config, lines, "--repository", "b"), (2, "ok 2\n", ["check: no such repository"]))
    trial.check("no such file", trial.call("check", config, "none"), (2, "ok 2\n", ["lines: cannot read"]))


# Texts of XML, and their canonical texts.
CANONICAL = {
    "<a/>": '<a xmlns=""></a>',
    "<?xml version='1.0' encoding='utf-8'?>\n<!-- a --><m:a xmlns:m='urn:m'  b='1&#x9;2'\n>x<![CDATA[<]]>&gt;<?p q?></m:a>\n":
        '<m:a xmlns:m="urn:m" b="1&#9;2" xmlns="">x&lt;&gt;</m:a>',
}

# Texts that are no XML element, and what is said of them.
NO_ELEMENTS = {
    "": "1:1: the text ends within an element, or before one",
    "<a>\n  <b></c>\n</a>": "2:8: the end tag has not the name of its start tag",
    "<a>&nbsp;</a>": "1:5: this is no reference that can be resolved without a document type",
    "<a b='<'/>": "1:7: '<' cannot stand in the value of an attribute",
    "<a>\n\n<m:b/></a>": "3:5: this tag has a prefix that is not declared, an attribute twice, an illegal declaration, or too many of them",
    "<a>\x01</a>": "1:4: XML does not allow this character",
    "<a>\n <!DOCTYPE a>": "2:4: this cannot stand here",
    "<a><1/></a>": "1:5: this is no name",
    "<a>\n]]></a>": "2:3: ']]>' cannot stand in a text",
    "<a>" * 129: "1:386: there are more than 128 levels of elements",
}


def try_elements(trial):
    """Canonical texts of XML elements, and texts that are none."""
    for number, (text, wanted) in enumerate(CANONICAL.items()):
        path = trial.written(f"{number}.xml", text)
        trial.check(text, trial.call("xml", path), (0, wanted + "\n", []))
        ran = subprocess.run([oaihostd(), "xml", "-"], input=text.encode(), capture_output=True, check=False, timeout=60)
        trial.check(f"{text}, from the standard input", (ran.returncode, ran.stdout.decode(), ran.stderr), (0, wanted + "\n", b""))
    for text, wanted in NO_ELEMENTS.items():
        trial.check(text, trial.call("xml", trial.written("none.xml", text)), (1, "", [wanted]))
    latin = trial.written("latin.xml", b"<a>\n\xef</a>")
    trial.check("an element in Latin-1", trial.call("xml", latin), (1, "", ["2:1: here the text is not in UTF-8"]))
    trial.check("no such element", trial.call("xml", trial.folder / "none"), (2, "", ["xml: cannot read"]))


def reports():
    """Shows that `oaihostd` says where, and why, a configuration, a deposit line or an XML element is wrong.

    Each fault of a configuration, at its line, by `check` and by `serve`; several of them; each refusal of a line that it
    has by itself, by the configuration, or by the lines before it, at its column; and that nothing is said where nothing
    is wrong. Canonical texts of XML elements, and each kind of text that is none. It names each case that differs; its
    status is 0 where none does.
    """
    with tempfile.TemporaryDirectory() as place:
        trial = Checks(place)
        for step in (try_configurations, try_several, try_lines, try_repositories, try_elements):
            step(trial)
    return trial.ended()
