"""The archive that is looked at through the page of web/: its repositories, what is deposited in them, and the programs that serve it."""

import json
import pathlib
import re
import subprocess
import urllib.request

from oai.proxy import HOST, Proxy
from oai.servers import serve_durably

STEAL = "<script>window.stolen = 1</script>"
LINK = "javascript:window.stolen=1"
HEBREW = "שלום עולם"
ARABIC = "مكتبة الأرشيف"
FOUR_BYTES = "𝔘𝔫𝔦𝔠𝔬𝔡𝔢 📚 𓂀"

# Texts that attack, each of which has to be seen as it was deposited. The last ones are links, which are addresses of the web.
HOSTILE = [
    STEAL, '<img src="/none" onerror="window.stolen = 1">', LINK, f" {LINK}", "JaVaScRiPt:window.stolen=1", f"data:text/html,{STEAL}",
    "vbscript:window.stolen=1", "&lt;script&gt;", "]]><script/>", "</dd></dl><h2>Deleted</h2>", "\u202egnp.exe", f"https://{HOST}/ {LINK}",
    "W" * 3000,
]
ADDRESSES = [f"https://{HOST}/good", f'http://{HOST}/"onmouseover="window.stolen=1']


def repository(name, title, **others):
    usual = {
        "name": name, "repositoryName": title, "adminEmail": [f"{name}@{HOST}"], "earliestDatestamp": "2024-01-01T00:00:00Z",
        "deletedRecord": "persistent", "granularity": "seconds", "chunk": 100, "lifetime": 600, "lists": 10, "items": 1000, "formats": [],
    }
    return usual | others


def metadata_format(prefix, address, fields):
    return {"prefix": prefix, "schema": address, "namespace": address, "root": "article", "fields": fields}


CONFIGURATION = {
    "base": f"https://{HOST}", "cache": 64,
    "repositories": [
        repository("journal", "Journal of Sets", chunk=2, lists=1, formats=[metadata_format("jnl", f"http://{HOST}/jnl", ["volume", "pages"])]),
        repository("hostile", STEAL, adminEmail=[LINK], formats=[metadata_format("x", LINK, ["a"])]),
        repository("many", "Library of Ten Thousand Sets"),
        repository("theses", "Theses", earliestDatestamp="2024-01-01", granularity="days", deletedRecord="no"),
        repository("short", "Short Lists", chunk=1, lists=1, lifetime=1),
    ],
}


def item(identifier, fields, sets=(), **records):
    return {"deposit": identifier, "sets": list(sets), "records": {"oai_dc": fields} | records}


JOURNAL = [
    {"set": "letters", "name": "Letters & Notes"},
    {"set": "letters:early", "name": "Letters before 1900"},
    item("oai:journal:1", [["title", 'A & B < "C" é']]),
    item("oai:journal:2", [["title", "On Sets"]], ["letters"], jnl=[["volume", "7"], ["pages", "1-12"]]),
    item("oai:journal:3", [["title", "On Lists"], ["creator", "Doe, J."], ["date", "1899"]], ["letters:early"]),
    item("oai:journal:4", [["title", "On Deletions"]], ["letters"]),
    item("oai:journal:5", [["title", "On Dates"]], ["letters"]),
    {"delete": "oai:journal:4"},
]

DEPOSITS = {
    "journal": JOURNAL,
    "hostile": [
        {"set": "javascript", "name": STEAL},
        {"set": "javascript:steal()", "name": HEBREW},
        item("javascript:steal()", [["title", it] for it in HOSTILE] + [["identifier", it] for it in ADDRESSES], ["javascript:steal()"]),
        item("oai:hostile:letters", [["title", HEBREW], ["title", ARABIC], ["title", FOUR_BYTES], ["description", f"On {HEBREW}\nin two lines"]]),
    ],
    # 901 sets at the top: 300 with 30 below each, one that has 99 others below it one in the other, and 600.
    "many": [{"set": f"t{at}", "name": f"Shelf {at}"} for at in range(300)]
    + [{"set": f"t{at}:b{below}", "name": f"Box {below} of shelf {at}"} for at in range(300) for below in range(30)]
    + [{"set": ":".join(["d"] * depth), "name": f"Depth {depth}"} for depth in range(1, 101)]
    + [{"set": f"u{at}", "name": f"Single {at}"} for at in range(600)],
    "theses": [item("oai:theses:1", [["title", "On Archives"]])],
    "short": [item("oai:short:1", [["title", "One"]]), item("oai:short:2", [["title", "Two"]])],
}


# An element that attacks: names and texts of markup in it are seen as they are.
DC = "http://purl.org/dc/elements/1.1/"
ELEMENT = (
    f'<oai_dc:dc xmlns:oai_dc="http://www.openarchives.org/OAI/2.0/oai_dc/" xmlns:dc="{DC}">\n  <dc:title xml:lang="en">On Elements</dc:title>\n'
    f'  <script xmlns="http://www.w3.org/1999/xhtml" src="/none">window.stolen = 1</script><img xmlns="http://www.w3.org/1999/xhtml" src="/none" '
    f'onerror="window.stolen = 1"/>\n  <dc:relation><a xmlns="" href="{LINK}">&lt;b&gt; {HEBREW}</a> and <dc:b xml:space="preserve"> <i xmlns=""/> </dc:b>'
    f"</dc:relation>{'<d>' * 60}deep{'</d>' * 60}{'<n/>' * 201}</oai_dc:dc>"
)
DEPOSITS["theses"].append({"deposit": "oai:theses:2", "sets": [], "records": {"oai_dc": ELEMENT}})

# The same about a record that is a list of fields.
ABOUT = [
    f'<r:rights xmlns:r="http://{HOST}/rights"><r:reference ref="https://{HOST}/good"/>{HEBREW}</r:rights>',
    '<script xmlns="http://www.w3.org/1999/xhtml">window.stolen = 1</script>',
]
DEPOSITS["theses"].append(item("oai:theses:3", [["title", "On Rights"]]) | {"about": {"oai_dc": ABOUT}})


class Archive(Proxy):
    """The server on a folder, and nginx before it."""

    def __init__(self, folder):
        self.config, self.kept, self.server_port = pathlib.Path(folder) / "archive.json", pathlib.Path(folder) / "kept", 0
        self.config.write_text(json.dumps(CONFIGURATION))
        self.start()
        super().__init__(folder, self.server_port)
        self.origin = f"https://{HOST}:{self.port}"

    def start(self):
        """Starts the server, at the port that it had before."""
        self.server = serve_durably(self.config, self.kept, port=self.server_port, errors=subprocess.DEVNULL)
        self.server_port = self.server.port

    def kill(self):
        """Ends the server."""
        self.server.kill()

    def __exit__(self, *_):
        """Ends both."""
        super().__exit__()
        self.kill()

    def deposit(self, name, lines):
        """Deposits lines, all of which have to be done; the datestamp that they have."""
        body = "".join(json.dumps(line) + "\n" for line in lines).encode()
        with urllib.request.urlopen(f"http://127.0.0.1:{self.server_port}/deposit/{name}", body) as answer:
            said = answer.read().decode().splitlines()
        wrong = [line for line in said if not re.fullmatch(r"ok \S+", line)]
        if wrong or len(said) != len(lines):
            raise RuntimeError(f"a deposit at {name}: {wrong[:1]}, {len(said)} of {len(lines)} lines")
        return said[-1].split()[1]
