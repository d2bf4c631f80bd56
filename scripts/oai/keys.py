"""Keys of depositors: what a server answers with them and without, alone and behind nginx. What is expected is written from docs/PROTOCOL.md and
docs/OPERATIONS.md, and for messages at random from a model of the rule."""

import hashlib
import http.server
import json
import os
import pathlib
import random
import re
import secrets
import subprocess
import tempfile
import threading

from oai.items import configuration, deposit
from oai.programs import EXAMPLE, TOP, needs, oaihostd
from oai.proxy import HOST, Proxy
from oai.servers import serve_durably, write_configuration
from oai.trials import Trial

SEED = 31
MESSAGES = int(os.environ.get("MESSAGES", "2000"))

# The address from which nginx lets deposits in.
ALLOWED = "127.0.0.2"

# A key of which the head of a request has just room.
LONG = "k" * 16_000

LINE = json.dumps(deposit("oai:a:1", [], {"oai_dc": [["title", "On Keys"]]})).encode()


class Keys:
    """Keys, made as OPERATIONS says: 16 of the repository `a`, one of `b`, none of `closed`; `open` does not stand there."""

    def __init__(self):
        self.of = {"a": [LONG, *(secrets.token_hex(32) for _ in range(15))], "b": [secrets.token_hex(32)], "closed": []}

    def text(self):
        return text_of({name: [digest_of(key) for key in keys] for name, keys in self.of.items()})

    def admit(self, path, values):
        """Whether a message to that path, whose fields Authorization have these values, is admitted."""
        found = values and re.fullmatch(r"[ \t]*bearer[ \t]+(.*?)[ \t]*", values[0], re.IGNORECASE)
        return all(path != f"/deposit/{name}" or (found and found[1] and found[1] in keys) for name, keys in self.of.items())


def digest_of(key):
    return hashlib.sha256(key.encode()).hexdigest()


def text_of(digests):
    """The text of the keys with these digests."""
    return json.dumps({"keys": [{"name": name, "digests": its} for name, its in digests.items()]})


def bearer(key):
    return [f"Bearer {key}"]


class Client:
    """A connection on which messages are sent as they are written."""

    def __init__(self, server):
        self.connection = server.connect()

    def exchange(self, method, path, values=(), body=b""):
        """The answer to a message with these values of the field Authorization: its status, its field WWW-Authenticate and its body."""
        self.connection.putrequest(method, path)
        for value in values:
            self.connection.putheader("Authorization", value)
        self.connection.putheader("Content-Length", str(len(body)))
        self.connection.endheaders(body)
        answer = self.connection.getresponse()
        return answer.status, answer.headers["WWW-Authenticate"], answer.read()


DENIED = (401, 'Bearer realm="deposit"', b"")


def four_repositories(folder):
    """Writes a configuration."""
    made = configuration(chunk=100, lifetime=3600, lists=10, items=1000)
    made["repositories"] = [made["repositories"][0] | {"name": name} for name in ("a", "b", "closed", "open")]
    write_configuration(folder / "config.json", made)


def serve_with(folder, text=None):
    """A server behind the keys in a text, or without; what it writes on standard error is kept."""
    if text is not None:
        (folder / "keys.json").write_text(text)
    keys = [] if text is None else [str(folder / "keys.json")]
    return serve_durably(folder / "config.json", folder / "archive", behind=keys, errors=tempfile.TemporaryFile("w+"))


# ---- the file


def faults():
    """Texts of keys and what is said of each, for a configuration with the repositories `a`, `preprints` and `theses`."""
    digest, ring = digest_of("x"), {"name": "a", "digests": [digest_of("x")]}
    shapes = ["[]", "{}", '{"keys":{}}', '{"keys":[],"more":1}', '{"keys":["a"]}', '{"keys":[{"name":"a"}]}', '{"keys":[{"digests":[]}]}']
    shapes += [json.dumps({"keys": [ring | change]}) for change in ({"name": 1}, {"more": 1}, {"digests": digest}, {"digests": [1]})]
    shapes += [text_of({"a": [it]}) for it in ("", digest[1:], digest + "0", digest[:-1] + "g", f"{digest} ", f"0x{digest[2:]}")]
    twice, long = {"keys": [ring, ring]}, {"a": [digest] * 17}
    return {
        **{text: "keys: bad JSON" for text in ("", "{", "keys", '{"keys":[]} x', '\ufeff{"keys":[]}')},
        **{text: "keys: bad shape" for text in shapes},
        text_of({"none": [], "a": [digest]}): "keys: no repository: none",
        text_of({"A": []}): "keys: no repository: A",
        json.dumps({"keys": [*twice["keys"], {"name": "c", "digests": []}]}): "keys: no repository: c",
        json.dumps({"keys": [*twice["keys"], {"name": "theses", "digests": [digest] * 17}]}): "keys: twice: a",
        text_of(long): "keys: too many: a",
    }


def try_faults(trial, folder):
    """Files of keys that are none, and such that are."""
    path = folder / "keys.json"

    def called(*arguments):
        done = subprocess.run([oaihostd(), *map(str, arguments)], capture_output=True, text=True, timeout=60, check=False)
        return done.returncode, done.stdout, done.stderr

    for text, said in faults().items():
        path.write_text(text)
        trial.check(f"keys {text[:80]}", called("keys", EXAMPLE, path), (2, "", f"{said}\n"))
        trial.check(f"serve with {text[:80]}", called("serve", EXAMPLE, 0, folder / "none", path), (2, "", f"{said}\n"))
    trial.check("no file", called("keys", EXAMPLE, folder / "nothing"), (2, "", "keys: cannot read\n"))
    trial.check("no folder is made", (folder / "none").exists(), False)
    warnings = [f"warning: repository {name}: deposits are open\n" for name in ("a", "theses", "preprints")]
    for names, open_ones in (((), warnings), (("a",), warnings[1:]), (("preprints", "theses", "a"), [])):
        path.write_text(text_of({name: [digest_of(str(n)).upper() for n in range(16)] for name in names}))
        status, out, err = called("keys", EXAMPLE, path)
        trial.check(f"keys of {names}", (status, out, sorted(err.splitlines(True))), (0, f"ok {len(names)}\n", sorted(open_ones)))


# ---- a server


def try_denials(trial, keys, client, archive):
    """Messages that are denied: each is answered 401, and the journal is the same byte for byte."""
    own, other = keys.of["a"][1], keys.of["b"][0]
    before = archive.read_bytes()
    denied = {
        "no field": [], "another scheme": [f"Basic {own}"], "no scheme": [own], "a longer scheme": [f"Bearers {own}"], "no key": ["Bearer"],
        "an empty key": ["Bearer \t "], "a key of another repository": bearer(other), "a key of none": bearer(secrets.token_hex(32)),
        "a digest": bearer(digest_of(own)), "a part of a key": bearer(own[:-1]), "a key in capitals": bearer(own.upper()), "two keys": bearer(f"{own}, {own}"),
        "the second field": [*bearer(other), *bearer(own)], "a scheme before": [f"Basic x, Bearer {own}"], "quotes": [f'Bearer "{own}"'],
    }  # fmt: skip
    for what, values in denied.items():
        trial.check(what, client.exchange("POST", "/deposit/a", values, LINE), DENIED)
    for method in ("GET", "PUT", "DELETE", "OPTIONS", "POST"):
        trial.check(f"{method} without a key", client.exchange(method, "/deposit/a"), DENIED)
    for target, key in {"/deposit/a?x": other, "/deposit/b": own, "/deposit/closed": own}.items():
        trial.check(target, client.exchange("POST", target, bearer(key), LINE), DENIED)
    trial.check("2 MiB behind a wrong key", client.exchange("POST", "/deposit/a", bearer(other), bytes(2**21)), DENIED)
    trial.check("the journal", archive.read_bytes() == before, True)
    trial.check("the next message", client.exchange("GET", "/oai/a?verb=Identify", bearer(other))[0], 200)


def try_admissions(trial, keys, client):
    """Messages that are admitted, and what is answered before keys are looked at."""
    own = keys.of["a"][1]
    for number, key in enumerate(keys.of["a"]):
        trial.check(f"key {number}", client.exchange("POST", "/deposit/a", bearer(key), LINE)[0], 200)
    for value in (f"bearer {own}", f"BEARER {own}", f"bEaReR \t {own}", f"\t Bearer {own} \t"):
        trial.check(f"{value[:12]!r}", client.exchange("POST", "/deposit/a", [value], LINE)[0], 200)
    trial.check("the first field", client.exchange("POST", "/deposit/a", [*bearer(own), *bearer("x")], LINE)[0], 200)
    trial.check("a repository without keys", client.exchange("POST", "/deposit/open", [], LINE)[0], 200)
    trial.check("another method", client.exchange("PUT", "/deposit/a", bearer(own))[:2], (405, None))
    for target in ("/deposit/none", "/deposit/", "/deposit/a/", "/deposit/%61", "/DEPOSIT/a"):
        for values in ([], bearer(own)):
            trial.check(f"{target} {len(values)}", client.exchange("POST", target, values, LINE)[:2], (404, None))


def try_at_random(trial, keys, client):
    """Messages at random beside the model."""
    chance = random.Random(SEED)
    every = [key for its in keys.of.values() for key in its if key != LONG]
    schemes = ["Bearer", "bearer", "BEARER", "Basic", "Bear", ""]

    def value():
        key = chance.choice([*every, "", "x", digest_of(chance.choice(every))])
        return chance.choice(["", " ", "\t"]) + chance.choice(schemes) + chance.choice([" ", "  ", "\t", ""]) + key + chance.choice(["", " "])

    for _ in range(MESSAGES):
        name = chance.choice(["a", "b", "closed", "open", "none", "A", "a/"])
        values = [value() for _ in range(chance.choice([0, 1, 1, 1, 2]))]
        path = f"/deposit/{name}"
        wanted = 401 if not keys.admit(path, values) else 200 if name in ("a", "b", "closed", "open") else 404
        trial.check(f"{path} {values}", client.exchange("POST", path, values, LINE)[0], wanted)


def try_lives(trial, folder):
    """A key that is withdrawn, one that is new, and a life without keys: the archive stays."""
    digests = {"a": [digest_of("two")], "b": [], "closed": [digest_of("three")]}
    with serve_with(folder, text_of(digests)) as server:
        client = Client(server)
        trial.check("a key of another life", client.exchange("POST", "/deposit/a", bearer(LONG), LINE), DENIED)
        trial.check("a new key", client.exchange("POST", "/deposit/a", bearer("two"), LINE)[0], 200)
        trial.check("a repository that is opened", client.exchange("POST", "/deposit/closed", bearer("three"), LINE)[0], 200)
        trial.check("its warning", [it for it in server.said().splitlines() if it.startswith("warning")], ["warning: repository open: deposits are open"])
    with serve_with(folder) as server:
        trial.check("no keys", Client(server).exchange("POST", "/deposit/b", [], LINE)[0], 200)
        trial.check("no warning", "warning" in server.said(), False)


# ---- nginx, and the scripts


class Noting(http.server.BaseHTTPRequestHandler):
    """Notes the path of each message, and its field Authorization."""

    def do_GET(self):
        self.server.noted.append((self.path, self.headers["Authorization"]))
        self.rfile.read(int(self.headers["Content-Length"] or 0))
        self.send_response(200)
        self.send_header("Content-Length", "0")
        self.end_headers()

    do_POST = do_GET

    def log_message(self, *_):
        pass


def curl(proxy, path, *arguments, source=ALLOWED):
    """The status of what curl is answered through the proxy."""
    command = ["curl", "-sk", "-o", "/dev/null", "-w", "%{http_code}", "--interface", source, "--resolve", f"{HOST}:{proxy.port}:127.0.0.1"]
    return subprocess.run([*command, *arguments, f"https://{HOST}:{proxy.port}{path}"], capture_output=True, text=True, check=False).stdout


def try_proxy(trial, folder, keys):
    """What nginx hands on, and to whom."""
    key = ["-H", f"Authorization: Bearer {keys.of['b'][0]}"]
    with serve_with(folder, keys.text()) as server, tempfile.TemporaryDirectory() as place:
        (pathlib.Path(place) / "archive.json").write_bytes((folder / "config.json").read_bytes())
        with Proxy(place, server.port, [("192.0.2.17", ALLOWED)]) as proxy:
            data = ["--data-binary", LINE.decode()]
            trial.check("curl with a key", curl(proxy, "/deposit/b", *key, *data), "200")
            trial.check("curl without a key", curl(proxy, "/deposit/b", *data), "401")
            trial.check("curl with a key of another repository", curl(proxy, "/deposit/a", *key, *data), "401")
            trial.check("curl with a key from another address", curl(proxy, "/deposit/b", *key, *data, source="127.0.0.1"), "403")
            trial.check("curl that harvests", curl(proxy, "/oai/b?verb=Identify", *key, source="127.0.0.1"), "200")
    with http.server.ThreadingHTTPServer(("127.0.0.1", 0), Noting) as server, tempfile.TemporaryDirectory() as place:
        server.noted = []
        threading.Thread(target=server.serve_forever, daemon=True).start()
        (pathlib.Path(place) / "archive.json").write_text("{}")
        with Proxy(place, server.server_port, [("192.0.2.17", ALLOWED)]) as proxy:
            for path in ("/deposit/b", "/oai/b"):
                curl(proxy, path, *key)
        server.shutdown()
        trial.check("what nginx hands on", server.noted, [("/deposit/b", key[1].split(": ")[1]), ("/oai/b", None)])


def try_scripts(trial, folder, keys):
    """scripts/deposit and scripts/mirror with a key, and without."""
    right, wrong, lines = folder / "right", folder / "wrong", folder / "lines"
    right.write_text(f"{keys.of['b'][0]}\n")
    wrong.write_text(f"{keys.of['a'][1]}\n")
    lines.write_text("".join(json.dumps(deposit(f"oai:b:{n}", [], {"oai_dc": []})) + "\n" for n in range(20)))
    with serve_with(folder, keys.text()) as server:
        Client(server).exchange("POST", "/deposit/a", bearer(LONG), LINE.replace(b"oai:a:1", b"oai:a:2"))
        url = f"http://127.0.0.1:{server.port}/deposit/b"

        def called(script, *arguments):
            done = subprocess.run([TOP / "scripts" / script, *map(str, arguments)], capture_output=True, text=True, timeout=600, check=False)
            return done.returncode, done.stdout, done.stderr

        for key in ((), ("--key", wrong)):
            status, _, said = called("deposit", lines, url, *key)
            trial.check(f"deposit {key[:1]}", (status, "401 Unauthorized" in said), (1, True))
            status, _, said = called("mirror", *mirrored(server, folder), *key)
            trial.check(f"mirror {key[:1]}", (status, "401 Unauthorized" in said), (1, True))
        trial.check("deposit --key", called("deposit", lines, url, "--key", right)[:2], (0, "ok 20, executed before 0, refused 0\n"))
        status, said, _ = called("mirror", *mirrored(server, folder), "--key", right)
        trial.check("mirror --key", (status, said), (0, "new 1, changed 0, deleted 0, unchanged 1, sets 0, refused 0\n"))


def mirrored(server, folder):
    """The arguments of scripts/mirror, which moves the repository `a` into `b`."""
    front = f"http://127.0.0.1:{server.port}"
    return f"{front}/oai/a", f"{front}/deposit/b", folder / "state"


def keys():
    """Shows what `oaihostd` answers with keys of depositors, and that a message which is denied changes nothing.

    Faults and warnings of the file of keys; messages by hand and 2,000 at random (or MESSAGES); the journal after those
    that are denied; keys that change between two lives; nginx with the lines of web/nginx.conf, by curl; and the option
    --key of scripts/deposit and scripts/mirror. Its last line is `N checked, M differ`, and its status is 0 where M is
    0. Packages of Debian: apt-get install nginx-light openssl curl libhttp-oai-perl python3-tqdm python3-urllib3
    """
    needs("nginx", "openssl", "curl", perl=["HTTP::OAI"], python=["tqdm", "urllib3"])
    trial, made = Trial(), Keys()
    with tempfile.TemporaryDirectory() as place:
        folder = pathlib.Path(place)
        try_faults(trial, folder)
        four_repositories(folder)
        with serve_with(folder, made.text()) as server:
            trial.check("warnings", [it for it in server.said().splitlines() if it.startswith("warning")], ["warning: repository open: deposits are open"])
            client = Client(server)
            try_admissions(trial, made, client)
            try_denials(trial, made, client, folder / "archive/journal")
            trial.check("more than 2 MiB", Client(server).exchange("POST", "/deposit/a", [], bytes(2**21 + 1))[0], 413)
            try_at_random(trial, made, client)
        try_lives(trial, folder)
        try_proxy(trial, folder, made)
        try_scripts(trial, folder, made)
    return trial.ended()
