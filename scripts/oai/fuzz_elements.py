"""Random scripts for a server of `oaihostd`, in which records are elements too and have elements about them, compared with the model."""

import json
import pathlib
import re
import subprocess
import tempfile

from oai.author import KINDS, Author
from oai.elements import FIFTH_EDITION, Author as Texts
from oai.exports import LIMIT, dumped
from oai.items import deposit
from oai.model import OAI, Host, parts_of, read_bound
from oai.programs import oaihostd
from oai.servers import serve_durably, write_configuration
from oai.trials import Trial

# A format without fields, of the repositories that have formats.
WHOLE = {"prefix": "whole", "schema": "http://host.example/whole.xsd", "namespace": "http://host.example/whole/", "root": "record"}

# The roots of the formats, by their prefixes: namespace and local name.
ROOTS = {"oai_dc": (f"{OAI}oai_dc/", "dc"), "jnl": ("http://host.example/jnl/", "article"), "whole": (WHOLE["namespace"], WHOLE["root"])}

MOMENT = re.compile("<responseDate>([^<]*)</responseDate>|^ok (.*)$", re.MULTILINE)

# What may stand around a root, and is not kept.
FRONTS, ENDS = ["", "", "<?xml version='1.0'?>\n", "<!-- c -->"], ["", "", "\r\n", "<?p q?>"]


class ElementAuthor(Author):
    """Writes exchanges at random for a server that goes by its own clock, so that no list expires; some records are elements."""

    def __init__(self, seed):
        super().__init__(seed, has_texts=True)
        for it in self.configuration["repositories"]:
            it |= {"lifetime": 1_000_000, "lists": 10_000}
            it["formats"] = it["formats"] and [*it["formats"], WHOLE]
        self.host, self.texts = Host(self.configuration, has_elements=True), Texts(f"fuzz-elements {seed}")

    def next_exchange(self):
        """The method, the target and the body of what is asked next."""
        repository = self.host.repositories[self.chooser.choices("abc", [6, 2, 2])[0]]
        kinds = KINDS | {ElementAuthor.deposit_elements: 30, ElementAuthor.change_forms: 5, ElementAuthor.change_about: 5, ElementAuthor.put: 25}
        return self.chooser.choices(list(kinds), list(kinds.values()))[0](self, repository)

    def element(self, prefix):
        """A text that is mostly an element of the format: with a prefix or without, and with what stands around a root; or is of another format, or is none."""
        space, root = ROOTS[prefix if self.chance(0.95) else self.choice(list(ROOTS))]
        mark = self.choice(["", "p:", "q:"])
        declared = f'xmlns{":" if mark else ""}{mark.rstrip(":")}="{space}"'
        inside = "".join(self.texts.element(self.choice([0, 1, 2, 3]), ["p", "q"][: 1 if mark == "p:" else 0]) for _ in range(self.choice([0, 1, 1, 3])))
        text = self.choice(FRONTS) + f"<{mark}{root} {declared}>{inside}</{mark}{root}>" + self.choice(ENDS)
        return (self.texts.mutilated(text) if self.chance(0.3) else text).translate(FIFTH_EDITION)

    def deposit_elements(self, repository):
        """A deposit of which some records are elements, and others lists; some have elements about them."""
        line, has_about = json.loads(self.deposit(repository)[2]), self.chance(0.5)
        for prefix in repository.formats:
            if self.chance(0.3 if has_about else 0.6):
                line["records"][prefix] = self.element(prefix)
        if has_about:
            about = {prefix: self.texts_about() for prefix, given in line["records"].items() if self.chance(0.7 if given else 0.1)}
            # (its prefixes stand in any order)
            line["about"] = dict(self.chooser.sample(list(about.items()), len(about)))
        return self.posted(repository, line)

    def texts_about(self):
        """Up to three texts about a record, which are mostly elements, of any root."""
        return [self.text_about() for _ in range(self.choice([0, 1, 1, 2, 3]))]

    def text_about(self):
        text = self.texts.text()
        return (self.texts.mutilated(text) if self.chance(0.05) else text).translate(FIFTH_EDITION)

    def put(self, repository):
        """Puts of an item: mostly as it is held, written otherwise or changed; or of one that is unknown, or that is refused. Now and then the line comes
        again in the same message, or behind a deposit of the same."""
        known = list(repository.items.values())
        if known and self.chance(0.75):
            line = self.held_line(self.choice(known))
        else:
            kinds = {Author.deposit: 4, ElementAuthor.deposit_elements: 4, ElementAuthor.change_forms: 1}
            line = json.loads(self.chooser.choices(list(kinds), list(kinds.values()))[0](self, repository)[2])
        names = self.chooser.choices([["put"], ["put", "put"], ["deposit", "put"], ["put", "deposit", "put"]], [6, 2, 1, 1])[0]
        members = {it: line[it] for it in ("sets", "records", "about") if it in line}
        bodies = [self.posted(repository, {name: line["deposit"]} | members)[2] for name in names]
        body = "\n".join(bodies)
        return "POST", f"/deposit/{repository.name}", body if len(body.encode()) <= LIMIT else bodies[0]

    def held_line(self, item):
        """The deposit of an item as it is held: of a deleted one without fields. It is written otherwise, or has another text, set, field or record, or
        something else about one."""
        line = line_of(item)
        records, prefix = line["records"], self.choice(list(item.records))
        change = self.chooser.choices(["none", "written", "sets", "order", "fields", "text", "form", "about"], [6, 6, 1, 1, 1, 1, 1, 2])[0]
        if change == "written":
            line["sets"] += [it.rpartition(":")[0] or it for it in item.sets]
            line["records"] = {it: self.written(records[it]) for it in self.chooser.sample(list(records), len(records))}
            # (an empty list of texts is nothing)
            line["about"] = {prefix: []} | {it: [self.written(text) for text in texts] for it, texts in line.get("about", {}).items()}
        elif change == "about":
            texts = line.setdefault("about", {}).setdefault(prefix, [])
            line["about"][prefix] = self.choice([texts[1:], texts[::-1], texts * 2, [*texts, self.text_about()], [it.replace(">", "> ", 1) for it in texts]])
        elif change == "sets":
            line["sets"] = line["sets"][1:]
        elif change == "order":
            line["sets"].reverse()
        elif isinstance(records[prefix], str):
            text = records[prefix]
            records[prefix] = self.element(prefix) if change == "form" else text.replace(">", "> ", 1) if change == "text" else text
        elif change == "fields":
            records[prefix] = records[prefix][1:] or [["title" if prefix == "oai_dc" else "volume", "x"]]
        elif change == "text" and records[prefix]:
            records[prefix][-1][1] += " "
        elif change == "form":
            records[prefix] = self.element(prefix)
        return line

    def written(self, given):
        """What is given for a record, an element with what stands around a root and is not kept."""
        if not isinstance(given, str):
            return given
        return self.choice(FRONTS) + given + self.choice(ENDS)

    def change_forms(self, repository):
        """A deposit of what no format takes: a field without a name, a list in a format without fields, a number."""
        prefix = self.choice(list(repository.formats))
        records = {"oai_dc": [], prefix: self.choice([[["", self.element(prefix)]], [], [["record", "x"]], 1, None, {"": "<a/>"}])}
        return self.posted(repository, deposit(self.identifier(repository), [], records))

    def change_about(self, repository):
        """A deposit with what no record may have about it: of another format or kind, about an empty list, or no element in the second place."""
        prefix, text = self.choice(list(repository.formats)), self.element("oai_dc")
        records = {"oai_dc": [["title", "x"]], prefix: self.choice([[], [["record", "x"]], text, text])}
        wrong = [{"none": []}, {"none": [text]}, {prefix: text}, {prefix: [[text]]}, {prefix: [1]}, {prefix: None}, [], None, text, {prefix: [text, "<"]}]
        about = self.choice([*wrong, {}, {prefix: []}, {prefix: [text], "oai_dc": [text, "", "<"]}, {prefix: [text]}])
        return self.posted(repository, deposit(self.identifier(repository), [], records) | {"about": about})


class Run:
    """A server and the model, which are asked the same."""

    def __init__(self, folder, seed, trial):
        self.author, self.seed, self.trial = ElementAuthor(seed), seed, trial
        self.folder, self.config = str(folder / "archive"), folder / "config.json"
        write_configuration(self.config, {"cache": 64} | self.author.configuration)
        self.server, self.refused, self.about = None, {}, 0
        self.start()

    def start(self):
        self.server = serve_durably(self.config, self.folder, errors=subprocess.DEVNULL)
        self.connection = self.server.connect()

    def kill(self):
        self.connection.close()
        self.server.kill()

    def ask(self):
        """One exchange: the answer is the model's, at the moment that the answer tells."""
        method, target, body = self.author.next_exchange()
        if not target.startswith("/") or target.startswith("/deposit/") and method != "POST":
            return
        form = {"Content-Type": "application/x-www-form-urlencoded"} if target.startswith("/oai/") else {}
        self.connection.request(method, target, body.encode(), form if method == "POST" else {})
        came = self.connection.getresponse()
        status, text = came.status, came.read().decode()
        wanted = self.author.host.exchange(self.moment(target, text), method, target, body)
        what = f"seed {self.seed}: {method} {target} {body[:300]!r}"
        self.trial.check(what, (status, text), (wanted.status, wanted.body))
        self.about += text.count("<about>")
        for words in re.findall("^(ok|refused [0-9]+)", text, re.MULTILINE):
            self.refused[words] = self.refused.get(words, 0) + 1

    def moment(self, target, text):
        """The moment of an answer, as far as it tells: otherwise the clock stands still. A put that leaves an item as it is tells an earlier one."""
        found = [read_bound(it[1] or it[2]).moment for it in MOMENT.finditer(text)]
        repository = self.author.host.repositories.get(target.partition("?")[0].rpartition("/")[2])
        return max(found) if found else repository.clock if repository else 0

    def save(self):
        """A checkpoint, which ends the lists and raises their numbers."""
        self.kill()
        subprocess.run([oaihostd(), "checkpoint", str(self.config), self.folder], stdout=subprocess.DEVNULL, check=True)
        for it in self.author.host.repositories.values():
            it.lists.clear()
            it.next += 1_000_000
        self.start()

    def compare_dumps(self):
        for name, repository in self.author.host.repositories.items():
            ran = subprocess.run([oaihostd(), "dump", self.folder, name], stdout=subprocess.PIPE, text=True, check=True)
            found = [dumped(json.loads(it)) for it in ran.stdout.split("\n") if it]
            self.trial.check(f"seed {self.seed}: the dump of {name}", found, [dumped(it) for it in lines_of(repository)])


def lines_of(repository):
    """The lines of a dump: sets, then items by their datestamps; an element as a text."""
    for spec, name in repository.sets.items():
        yield {"set": spec, "name": name}
    for it in sorted(repository.items.values(), key=lambda it: (it.stamp, it.identifier)):
        yield line_of(it)
        if not it.is_live:
            yield {"delete": it.identifier}


def line_of(item):
    """The deposit of an item, with what is about its records, if there is something."""
    parts = {prefix: parts_of(fields) for prefix, fields in item.records.items()}
    about = {prefix: texts for prefix, (_, texts) in parts.items() if texts}
    return deposit(item.identifier, list(item.sets), {prefix: as_given(it) for prefix, (it, _) in parts.items()}) | ({"about": about} if about else {})


def as_given(fields):
    """What is given for a record that is itself kept as these fields: an element as a text."""
    return fields[0][1] if [name for name, _ in fields] == [""] else [list(it) for it in fields]


def fuzz_elements(scripts: int = 20, lines: int = 500, seed: int = 96):
    """Compares what `oaihostd` answers to scripts at random, in which records are elements, with a model.

    A script is a number of exchanges with a server of three repositories: those of `fuzz`, and deposits of elements, of
    lists and of both; elements of the format, with prefixes, comments, CDATA and references, some of them mutilated, or
    of another format; elements about records, and what is none; fields without names; puts of items as they are held,
    changed, deleted or unknown. Each answer is that of the model, which reads elements by expat, at the moment that the
    answer tells. After a half the server is killed, after three quarters a checkpoint is made; at the end dumps are
    compared. It says how often each refusal was answered, how many puts left an item as it is, and how many elements
    about records were answered. The last line is `N checked, M differ`; the status is 0 where M is 0. A script has a
    seed of its own, SEED and the ones after it.
    """
    oaihostd()
    trial, refused, left, about = Trial(), {}, 0, 0
    for number in range(seed, seed + scripts):
        with tempfile.TemporaryDirectory(prefix="fuzz-elements-") as folder:
            run = Run(pathlib.Path(folder), number, trial)
            try:
                for at in range(lines):
                    if at == lines // 2:
                        run.kill()
                        run.start()
                    if at == lines * 3 // 4:
                        run.save()
                    run.ask()
                run.compare_dumps()
            finally:
                run.kill()
            refused = {it: refused.get(it, 0) + run.refused.get(it, 0) for it in refused.keys() | run.refused.keys()}
            left += sum(it.left for it in run.author.host.repositories.values())
            about += run.about
    numbered = sorted(refused, key=lambda it: int((it.split() + ["0"])[1]) if " " in it else 0)
    print(", ".join([*(f"{it}: {refused[it]}" for it in numbered), f"put and left: {left}", f"about records: {about}"]))
    return trial.ended()
