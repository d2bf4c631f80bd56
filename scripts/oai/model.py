"""What the repositories of a host answer, byte by byte: a model, written from OAI-PMH 2.0 and docs/PROTOCOL.md, and not from
the program. It has no pages, versions or cache: items are a dictionary, and a list that is open holds its items themselves.
"""

import datetime
import json
import re
from dataclasses import dataclass
from typing import NamedTuple, Optional
from urllib.parse import parse_qsl

from oai.element_texts import IN_ATTRIBUTE, IN_TEXT, Element, NoElement, read_element
from oai.items import DUBLIN_CORE

DAY = 86_400
EPOCH = datetime.datetime(1970, 1, 1)
LAST_TICK = 253_370_764_799  # 9998-12-31T23:59:59Z, where a clock stops
CYCLE_DAYS = 146_097  # the days of 400 years

ITEM_BYTES, SETS, IDENTIFIER_BYTES, SET_SPEC_BYTES, SET_NAME_BYTES = 1_048_576, 10_000, 512, 256, 512

PART = r"[A-Za-z0-9\-_.!~*'()]+"
SET_SPEC = re.compile(f"{PART}(:{PART})*")
IDENTIFIER = re.compile(r"[A-Za-z][A-Za-z0-9+\-.]*:[A-Za-z0-9\-._~:/?#\[\]@!$&'()*+,;=%]+")
EXCLUDED = re.compile("[\x00-\x08\x0b\x0c\x0e-\x1f\ufffe\uffff]")
BOUND = re.compile(r"([0-9]{4})-([0-9]{2})-([0-9]{2})(?:T([0-9]{2}):([0-9]{2}):([0-9]{2})Z)?")
TOKEN = re.compile(r"(0|[1-9][0-9]*)\.(0|[1-9][0-9]*)")

SCHEMA_INSTANCE = 'xmlns:xsi="http://www.w3.org/2001/XMLSchema-instance"'
OAI = "http://www.openarchives.org/OAI/2.0/"
HEAD = (
    '<?xml version="1.0" encoding="UTF-8"?>\n'
    f'<OAI-PMH xmlns="{OAI}" {SCHEMA_INSTANCE} xsi:schemaLocation="{OAI} {OAI}OAI-PMH.xsd">'
)
DUBLIN_CORE_START = (
    f'<oai_dc:dc xmlns:oai_dc="{OAI}oai_dc/" xmlns:dc="http://purl.org/dc/elements/1.1/" {SCHEMA_INSTANCE}'
    f' xsi:schemaLocation="{OAI}oai_dc/ {OAI}oai_dc.xsd">'
)
ERRORS = {
    "badVerb": "The verb is missing, repeated or illegal.",
    "badArgument": "An argument is illegal, missing, repeated or of illegal syntax.",
    "badResumptionToken": "The resumption token is invalid or has expired.",
    "cannotDisseminateFormat": "The metadata format is not available.",
    "idDoesNotExist": "No item has this identifier.",
    "noRecordsMatch": "No records match.",
    "noMetadataFormats": "The item has no metadata formats.",
    "noSetHierarchy": "The repository has no sets.",
}
# Why a deposit line is refused, numbered from 1.
REFUSALS = (
    "bad-json bad-command bad-identifier bad-set-spec bad-text unknown-set unknown-format no-dc unknown-field drops-format too-large"
    " too-many-items no-such-item already-deleted not-transient bad-date set-exists no-parent too-many-sets bad-xml not-of-format"
).split()

# Of each verb the arguments that it requires, and those that it may have beside them.
LISTING = ({"metadataPrefix"}, {"from", "until", "set"})
VERBS = {
    "Identify": (set(), set()),
    "ListMetadataFormats": (set(), {"identifier"}),
    "ListSets": (set(), set()),
    "GetRecord": ({"identifier", "metadataPrefix"}, set()),
    "ListIdentifiers": LISTING,
    "ListRecords": LISTING,
}
LISTS = ("ListSets", "ListIdentifiers", "ListRecords")
ARGUMENTS = "verb identifier metadataPrefix from until set resumptionToken".split()


class Answer(NamedTuple):
    """A status, with the seconds to wait of a 503, at which of a repository's two paths, and the body."""

    status: int
    seconds: Optional[int] = None
    path: str = ""
    body: str = ""


class Bound(NamedTuple):
    granularity: str
    moment: int


class Item(NamedTuple):
    identifier: str
    stamp: int
    is_live: bool
    sets: list
    records: dict


@dataclass
class OpenList:
    number: int
    verb: str
    prefix: str
    items: list
    end: int = 0
    given: int = 0


class Refused(Exception):
    """A request is answered by an error, whose code this is."""


class Later(Exception):
    """A request is to wait for so many seconds."""


def second_text(moment):
    return f"{(EPOCH + datetime.timedelta(seconds=moment)).isoformat()}Z"


def read_bound(text):
    """The bound that a text is, or None. Python has no year 0, whose days are those of the year 400."""
    found = BOUND.fullmatch(text)
    if not found:
        return None
    year, month, day, *time = (int(it) for it in found.groups() if it)
    try:
        days = datetime.date(year or 400, month, day).toordinal() - (0 if year else CYCLE_DAYS) - EPOCH.toordinal()
    except ValueError:
        return None
    if not time:
        return Bound("days", days * DAY)
    hour, minute, second = time
    is_time = hour < 24 and minute < 60 and second < 60
    return Bound("seconds", days * DAY + hour * 3600 + minute * 60 + second) if is_time else None


def covers(outer, inner):
    """Whether the second set is the first, or lies in it."""
    return inner == outer or inner.startswith(outer + ":")


def shown_sets(sets):
    """The sets that an item keeps: none twice, and none in which another one lies."""
    once = list(dict.fromkeys(sets))
    return [it for it in once if not any(other != it and covers(it, other) for other in once)]


def encoded_length(item):
    """How many bytes an item has as it is stored: each text and each list stands behind its length, of four bytes."""
    texts = [item.identifier, *item.sets, *item.records]
    texts += [text for fields in item.records.values() for field in fields for text in field]
    return 9 + 8 + sum(4 + len(it.encode()) for it in texts) + 4 * len(item.records)


def is_short(pattern, most, text):
    return bool(pattern.fullmatch(text)) and len(text.encode()) <= most


def are_texts(them):
    return isinstance(them, list) and all(isinstance(it, str) for it in them)


def is_record(given, has_elements):
    """Whether a member of `records` is a list of fields or, if records may be elements, a text."""
    if isinstance(given, str):
        return has_elements
    return isinstance(given, list) and all(are_texts(it) and len(it) == 2 for it in given)


def is_command(line, has_elements):
    """Whether a line has just the members of one of the commands, each of its kind. If records may be elements, one of them is a put, and elements about
    records may be given beside them."""
    if not isinstance(line, dict):
        return False
    members = set(line) - ({"about"} if has_elements else set())
    if members in [{it, "sets", "records"} for it in ["deposit", "put"][: 1 + has_elements]]:
        records, about = line["records"], line.get("about", {})
        is_dict = isinstance(identifier_in(line), str) and are_texts(line["sets"]) and isinstance(records, dict) and isinstance(about, dict)
        return is_dict and set(about) <= set(records) and all(is_record(it, has_elements) for it in records.values()) and all(map(are_texts, about.values()))
    return set(line) in ({"delete"}, {"purge"}, {"set", "name"}) and are_texts(list(line.values()))


def identifier_in(line):
    """The identifier of a deposit or a put."""
    return line["put" if "put" in line else "deposit"]


class Given(NamedTuple):
    """What a deposit gives for a format: a list of fields, or an element, and the elements about it."""

    content: object
    about: list

    def kept(self):
        """The fields as which an item keeps it: each element as one without a name, those about it behind the others."""
        fields = [["", self.content.text]] if isinstance(self.content, Element) else self.content
        return fields + [["", it.text] for it in self.about]


def read_elements(records, about):
    """What is given for each format, with each text read as an element: in the order of the bytes of the prefixes, the record itself first."""
    prefixes = sorted(records, key=str.encode)
    return {it: Given(read_content(records[it]), [read_element(text) for text in about.get(it, [])]) for it in prefixes}


def read_content(given):
    return read_element(given) if isinstance(given, str) else given


def parts_of(fields):
    """The fields of a record itself, and the elements about it: those from the first one without a name on that is not the first field."""
    end = next((at for at, (name, _) in enumerate(fields) if at and not name), len(fields))
    return fields[:end], [text for _, text in fields[end:]]


def are_bounds(arguments, granularity):
    bounds = [read_bound(arguments[it]) for it in ("from", "until") if it in arguments]
    if None in bounds:
        return False
    kinds = {it.granularity for it in bounds}
    return len(kinds) < 2 and not (granularity == "days" and "seconds" in kinds) and bounds == sorted(bounds)


def read_request(query, granularity):
    """The arguments of a request (OAI-PMH 2.0, section 4), or the error badVerb or badArgument (section 3.6)."""
    pairs = parse_qsl(query, keep_blank_values=True)
    verbs = [value for key, value in pairs if key == "verb"]
    if len(verbs) != 1 or verbs[0] not in VERBS:
        raise Refused("badVerb")
    arguments = dict(pairs)
    keys = set(arguments) - {"verb"}
    required, optional = VERBS[verbs[0]]
    if len(arguments) < len(pairs) or any(EXCLUDED.search(it) for it in arguments.values()):
        raise Refused("badArgument")
    if keys == {"resumptionToken"} and verbs[0] in LISTS:
        return arguments
    is_legal = (
        required <= keys <= required | optional
        and re.fullmatch(PART, arguments.get("metadataPrefix", "x"))
        and SET_SPEC.fullmatch(arguments.get("set", "x"))
        and are_bounds(arguments, granularity)
    )
    if not is_legal:
        raise Refused("badArgument")
    return arguments


def element(name, *inside):
    return f"<{name}>{''.join(inside)}</{name}>"


def text_element(name, text):
    return element(name, text.translate(IN_TEXT))


class Repository:
    """One repository: its clock, its items by their identifiers, its sets in order of addition, and its open lists by their numbers. Where it has elements, a
    record may be one."""

    def __init__(self, base, settings, has_elements=False):
        self.settings, self.has_elements = settings, has_elements
        self.name = settings["name"]
        self.base = f"{base}/oai/{self.name}"
        self.is_by_day = settings["granularity"] == "days"
        self.clock = read_bound(settings["earliestDatestamp"]).moment
        self.items, self.sets, self.lists, self.next = {}, {}, {}, 1
        self.formats = {"oai_dc": None} | {it["prefix"]: it for it in settings["formats"]}
        # how many lists were read to their end, and how many puts left an item as it is
        self.finished, self.left = 0, 0

    def tick(self, moment):
        self.clock = max(self.clock, min(moment, LAST_TICK))
        self.lists = {number: it for number, it in self.lists.items() if it.end > self.clock}

    def stamp(self):
        return self.clock - self.clock % DAY if self.is_by_day else self.clock

    def stamp_text(self, stamp):
        return second_text(stamp)[: 10 if self.is_by_day else 20]

    # ---- deposits

    def change(self, moment, text):
        """The line that answers a deposit line."""
        self.tick(moment)
        try:
            line = json.loads(text)
        except ValueError:
            return "refused 1 bad-json\n"
        if not is_command(line, self.has_elements):
            return "refused 2 bad-command\n"
        try:
            line |= {"records": read_elements(line["records"], line.get("about", {}))} if "records" in line else {}
        except NoElement as fault:
            return f"refused 20 bad-xml {fault.at}\n"
        number = next((number for number, applies in self.refusals(line) if applies), None)
        if number:
            return f"refused {number} {REFUSALS[number - 1]}\n"
        return f"ok {self.stamp_text(self.perform(line))}\n"

    def refusals(self, line):
        """Each refusal that the kind of line may meet, in order, with whether it applies."""
        if "records" in line:
            return self.deposit_refusals(line)
        if "delete" in line:
            return self.delete_refusals(line["delete"])
        return self.purge_refusals(line["purge"]) if "purge" in line else self.set_refusals(line["set"], line["name"])

    def deposit_refusals(self, line):
        records = line["records"]
        lists = {prefix: it.content for prefix, it in records.items() if not isinstance(it.content, Element)}
        old = self.items.get(identifier_in(line))
        yield 3, not is_short(IDENTIFIER, IDENTIFIER_BYTES, identifier_in(line))
        yield 4, not all(is_short(SET_SPEC, SET_SPEC_BYTES, it) for it in line["sets"])
        yield 5, any(EXCLUDED.search(text) for fields in lists.values() for _, text in fields)
        yield 6, any(it not in self.sets for it in line["sets"])
        yield 7, any(it not in self.formats for it in records)
        yield 8, "oai_dc" not in records
        yield 9, any(name not in self.field_names(prefix) for prefix, fields in lists.items() for name, _ in fields)
        yield 21, not all(self.is_of_format(prefix, it) for prefix, it in records.items())
        yield 10, old and not set(old.records) <= set(records)
        yield 11, encoded_length(self.item_of(line)) > ITEM_BYTES
        yield 12, not old and len(self.items) >= self.settings["items"]

    def delete_refusals(self, identifier):
        yield 3, not is_short(IDENTIFIER, IDENTIFIER_BYTES, identifier)
        yield 13, identifier not in self.items
        yield 14, not self.items[identifier].is_live

    def purge_refusals(self, text):
        yield 15, self.settings["deletedRecord"] != "transient"
        bound = read_bound(text)
        yield 16, not bound or (self.is_by_day and bound.granularity == "seconds")

    def set_refusals(self, spec, name):
        yield 4, not is_short(SET_SPEC, SET_SPEC_BYTES, spec)
        yield 5, EXCLUDED.search(name) or not 1 <= len(name.encode()) <= SET_NAME_BYTES
        yield 17, spec in self.sets
        yield 18, ":" in spec and spec.rpartition(":")[0] not in self.sets
        yield 19, len(self.sets) >= SETS

    def field_names(self, prefix):
        return DUBLIN_CORE if prefix == "oai_dc" else self.formats[prefix].get("fields", [])

    def is_of_format(self, prefix, given):
        """Whether the root of an element is the format's; a list is of any format that has fields, and nothing is about an empty one."""
        content = given.content
        if not isinstance(content, Element):
            return bool(self.field_names(prefix)) and bool(content or not given.about)
        declared = self.formats[prefix] or {"namespace": f"{OAI}oai_dc/", "root": "dc"}
        return (content.namespace, content.local) == (declared["namespace"], declared["root"].rpartition(":")[2])

    def item_of(self, line):
        """The item of a line whose elements are read."""
        records = {prefix: it.kept() for prefix, it in line["records"].items()}
        return Item(identifier_in(line), self.stamp(), True, shown_sets(line["sets"]), records)

    def perform(self, line):
        """The datestamp that answers a line that is not refused: the one of now, but for a put that leaves its item as it is."""
        if "records" in line:
            item = self.item_of(line)
            old = self.items.get(item.identifier)
            if "put" in line and old and old._replace(stamp=item.stamp) == item:
                self.left += 1
                return old.stamp
            self.items[item.identifier] = item
        elif "delete" in line:
            self.delete(line["delete"])
        elif "purge" in line:
            below = read_bound(line["purge"]).moment
            self.items = {name: it for name, it in self.items.items() if it.is_live or it.stamp >= below}
        else:
            self.sets[line["set"]] = line["name"]
        return self.stamp()

    def delete(self, identifier):
        old = self.items.pop(identifier)
        if self.settings["deletedRecord"] != "no":
            self.items[identifier] = Item(identifier, self.stamp(), False, old.sets, {it: [] for it in old.records})

    # ---- requests

    def ask(self, moment, query):
        self.tick(moment)
        arguments = {}
        try:
            arguments = read_request(query, self.settings["granularity"])
            body = element(arguments["verb"], self.told(arguments))
        except Refused as error:
            body = f'<error code="{error}">{ERRORS[str(error)]}</error>'
        except Later as later:
            return Answer(503, later.args[0], "oai")
        return Answer(200, None, "oai", self.document(arguments, body))

    def document(self, arguments, body):
        attributes = "".join(f' {it}="{arguments[it].translate(IN_ATTRIBUTE)}"' for it in ARGUMENTS if it in arguments)
        date = text_element("responseDate", second_text(self.clock))
        return f"{HEAD}{date}<request{attributes}>{self.base.translate(IN_TEXT)}</request>{body}</OAI-PMH>\n"

    def told(self, arguments):
        """What stands in the element of the verb."""
        verb, identifier, prefix = (arguments.get(it) for it in ("verb", "identifier", "metadataPrefix"))
        if "resumptionToken" in arguments:
            return self.resumed(verb, arguments["resumptionToken"])
        if not self.sets and (verb == "ListSets" or "set" in arguments):
            raise Refused("noSetHierarchy")
        if "identifier" in arguments and identifier not in self.items:
            raise Refused("idDoesNotExist")
        if verb == "Identify":
            return self.identity()
        if verb == "ListSets":
            return "".join(self.set(it, name) for it, name in self.sets.items())
        if verb == "ListMetadataFormats":
            return self.formats_of(self.items.get(identifier))
        if prefix not in (self.items[identifier].records if verb == "GetRecord" else self.formats):
            raise Refused("cannotDisseminateFormat")
        if verb == "GetRecord":
            return self.record(self.items[identifier], prefix)
        return self.listed(verb, prefix, self.selected(prefix, arguments))

    def identity(self):
        settings = self.settings
        return "".join(
            [
                text_element("repositoryName", settings["repositoryName"]),
                text_element("baseURL", self.base),
                text_element("protocolVersion", "2.0"),
                *(text_element("adminEmail", it) for it in settings["adminEmail"]),
                text_element("earliestDatestamp", settings["earliestDatestamp"]),
                text_element("deletedRecord", settings["deletedRecord"]),
                text_element("granularity", "YYYY-MM-DD" if self.is_by_day else "YYYY-MM-DDThh:mm:ssZ"),
                *(element("description", read_element(it).text) for it in settings.get("description", [])),
            ]
        )

    def set(self, spec, name):
        described = self.settings.get("sets", {}).get(spec, [])
        containers = [element("setDescription", read_element(it).text) for it in described]
        return element("set", text_element("setSpec", spec), text_element("setName", name), *containers)

    def formats_of(self, item):
        if item and not item.is_live:
            raise Refused("noMetadataFormats")
        return "".join(self.format(it) for it in self.formats if not item or it in item.records)

    def format(self, prefix):
        declared = self.formats[prefix] or {"schema": f"{OAI}oai_dc.xsd", "namespace": f"{OAI}oai_dc/"}
        return element(
            "metadataFormat",
            text_element("metadataPrefix", prefix),
            text_element("schema", declared["schema"]),
            text_element("metadataNamespace", declared["namespace"]),
        )

    def selected(self, prefix, arguments):
        """What a list request selects: by prefix, inclusive bounds and set, in the order of stamps and then of identifiers."""
        lower = read_bound(arguments.get("from", "0000-01-01")).moment
        upper = read_bound(arguments.get("until", "9999-12-31"))
        last = upper.moment + (DAY - 1 if upper.granularity == "days" else 0)
        within = arguments.get("set")
        matching = (
            it
            for it in self.items.values()
            if prefix in it.records and lower <= it.stamp <= last and (within is None or any(covers(within, spec) for spec in it.sets))
        )
        return sorted(matching, key=lambda it: (it.stamp, it.identifier))

    def listed(self, verb, prefix, items):
        if not items:
            raise Refused("noRecordsMatch")
        if len(items) <= self.settings["chunk"]:
            return "".join(self.entry(verb, prefix, it) for it in items)
        if len(self.lists) >= self.settings["lists"]:
            raise Later(min(it.end for it in self.lists.values()) - self.clock)
        held = OpenList(self.next, verb, prefix, items)
        self.lists[held.number] = held
        self.next += 1
        return self.page(held, 0)

    def resumed(self, verb, text):
        """The part of an open list that a token asks for: one that was handed out, to this verb."""
        found = TOKEN.fullmatch(text)
        held = found and self.lists.get(int(found[1]))
        if not held or held.verb != verb:
            raise Refused("badResumptionToken")
        cursor = int(found[2])
        if cursor == 0 or cursor % self.settings["chunk"] or cursor > held.given:
            raise Refused("badResumptionToken")
        return self.page(held, cursor)

    def page(self, held, cursor):
        part = held.items[cursor : cursor + self.settings["chunk"]]
        held.end = self.clock + self.settings["lifetime"]
        after = cursor + len(part)
        told = f'completeListSize="{len(held.items)}" cursor="{cursor}"'
        if after < len(held.items):
            held.given = max(held.given, after)
            token = f'<resumptionToken expirationDate="{second_text(held.end)}" {told}>{held.number}.{after}</resumptionToken>'
        else:
            self.finished += 1
            token = f"<resumptionToken {told}></resumptionToken>"
        return "".join(self.entry(held.verb, held.prefix, it) for it in part) + token

    def entry(self, verb, prefix, item):
        return self.header(item) if verb == "ListIdentifiers" else self.record(item, prefix)

    def header(self, item):
        inside = [text_element("identifier", item.identifier), text_element("datestamp", self.stamp_text(item.stamp))]
        inside += [text_element("setSpec", it) for it in item.sets]
        status = "" if item.is_live else ' status="deleted"'
        return f"<header{status}>{''.join(inside)}</header>"

    def record(self, item, prefix):
        if not item.is_live:
            return element("record", self.header(item))
        fields, about = parts_of(item.records[prefix])
        return element("record", self.header(item), element("metadata", self.metadata(fields, prefix)), *(element("about", it) for it in about))

    def metadata(self, fields, prefix):
        if [name for name, _ in fields] == [""]:
            return fields[0][1]
        if prefix == "oai_dc":
            return DUBLIN_CORE_START + "".join(text_element(f"dc:{name}", text) for name, text in fields) + "</oai_dc:dc>"
        declared = self.formats[prefix]
        root, namespace = declared["root"], declared["namespace"]
        start = f'<{root} xmlns="{namespace}" {SCHEMA_INSTANCE} xsi:schemaLocation="{namespace} {declared["schema"]}">'
        return start + "".join(text_element(name, text) for name, text in fields) + f"</{root}>"


class Host:
    """Repositories by their names."""

    def __init__(self, configuration, has_elements=False):
        base = configuration["base"]
        self.repositories = {it["name"]: Repository(base, it, has_elements) for it in configuration["repositories"]}

    def exchange(self, moment, method, target, body, is_form=True):
        if not target.startswith("/"):
            return Answer(400)
        path, _, query = target.partition("?")
        found = re.fullmatch("/(oai|deposit)/([^/]*)", path)
        repository = found and self.repositories.get(found[2])
        if not repository:
            return Answer(404)
        kind = found[1]
        if method != "POST" and (method != "GET" or kind == "deposit"):
            return Answer(405, None, kind)
        if kind == "oai" and method == "POST" and not is_form:
            return Answer(415, None, kind)
        if kind == "oai":
            return repository.ask(moment, body if method == "POST" else query)
        lines = [it for it in body.split("\n") if it.strip(" \t\r")]
        return Answer(200, None, kind, "".join(repository.change(moment, it) for it in lines))
