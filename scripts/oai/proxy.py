"""nginx before a server, by the lines of web/nginx.conf."""

import collections
import gzip
import http.client
import json
import pathlib
import shutil
import socket
import ssl
import subprocess
import tempfile
import time
import urllib.request

from oai.items import deposit
from oai.programs import EXAMPLE, TOP, needs
from oai.servers import serve_durably
from oai.trials import Trial

HOST = "archive.example"


class Proxy:
    """nginx in a folder, which has a file `archive.json`, from here to the end of the `with`: by the lines of web/nginx.conf, or by others of that form,
    with other files and ports. The page is a copy, which every user may read."""

    def __init__(self, folder, port, replaced=(), lines=None, workers=1):
        self.folder = pathlib.Path(folder)
        self.folder.chmod(0o755)
        with socket.create_server(("127.0.0.1", 0)) as free:
            self.port = free.getsockname()[1]
        shutil.copytree(TOP / "web", self.folder / "web")
        lines = lines or (TOP / "web/nginx.conf").read_text()
        for usual, here in [
            ("listen 443", f"listen 127.0.0.1:{self.port}"), ("/etc/ssl", str(self.folder)), ("/usr/share/oaihost/web", f"{self.folder}/web"),
            ("/etc/oaihost", str(self.folder)), ("127.0.0.1:8480", f"127.0.0.1:{port}"), *replaced,
        ]:  # fmt: skip
            lines = lines.replace(usual, here)
        own = " ".join(f"{kind}_temp_path {kind};" for kind in ("client_body", "proxy", "fastcgi", "uwsgi", "scgi"))
        log = "log_format statuses '$status $request'; access_log access.log statuses;"
        around = f"worker_processes {workers}; error_log error.log; pid nginx.pid; events {{}}\nhttp {{ include /etc/nginx/mime.types; {log} {own}\n"
        (self.folder / "nginx.conf").write_text(f"{around}{lines}}}\n")
        subprocess.run(
            ["openssl", "req", "-x509", "-newkey", "rsa:2048", "-nodes", "-days", "1", "-subj", f"/CN={HOST}", "-keyout", "archive.key", "-out", "archive.pem"],
            cwd=self.folder,
            check=True,
            stderr=subprocess.DEVNULL,
        )
        self.nginx("-g", "daemon on;")

    def nginx(self, *arguments):
        subprocess.run(["nginx", "-p", str(self.folder), "-c", "nginx.conf", "-e", "error.log", *arguments], check=True)

    def __enter__(self):
        return self

    def __exit__(self, *_):
        self.nginx("-s", "stop")

    def statuses(self):
        """How often each status was answered, by the log."""
        with open(self.folder / "access.log", encoding="utf-8") as it:
            return collections.Counter(line.split(" ")[0] for line in it)


class Depositor:
    """Deposits an item after the other through the proxy, each on a connection of its own; and how those were answered that were not done."""

    def __init__(self, proxy):
        self.address = f"https://127.0.0.1:{proxy.port}/deposit/a"
        self.trust = ssl._create_unverified_context()
        self.count, self.others = 0, []

    def deposit(self):
        self.count += 1
        # (the repository of the example holds 1,000 items)
        number = (self.count - 1) % 500 + 1
        line = json.dumps(deposit(f"oai:a:{number}", [], {"oai_dc": [["title", str(self.count)]]})).encode()
        try:
            with urllib.request.urlopen(self.address, line, context=self.trust) as answer:
                said = answer.read().decode()
        except OSError as fault:
            said = str(fault)
        if not said.startswith("ok "):
            self.others.append(said)


def load_of(proxy, depositor):
    """`wrk` with 64 clients for a minute, beside deposits; what it says."""
    target = f"https://127.0.0.1:{proxy.port}/oai/a?verb=GetRecord&metadataPrefix=oai_dc&identifier=oai:a:1"
    with subprocess.Popen(["wrk", "-t2", "-c64", "-d60", target], stdout=subprocess.PIPE, text=True) as load:
        while load.poll() is None:
            depositor.deposit()
        return load.stdout.read()


def proxy_load(minutes: int = 10):
    """Shows that `oaihostd` behind nginx, with the lines of web/nginx.conf, answers no request with a status of 500 or above.

    There is one deposit every 59 to 61 seconds, so that kept connections are at the edge of their time, for ten minutes
    (or as many as are given); then `wrk` with 64 clients for a minute beside deposits. Its last line is `N requests, M
    of 5xx`, by nginx's log, and its status is 0 where M is 0 and each deposit was done. Packages of Debian: apt-get
    install nginx-light wrk openssl
    """
    needs("nginx", "wrk", "openssl")
    with tempfile.TemporaryDirectory() as place, tempfile.TemporaryFile("w+") as notes:
        shutil.copy(TOP / EXAMPLE, f"{place}/archive.json")
        with serve_durably(EXAMPLE, f"{place}/archive", errors=notes) as server, Proxy(place, server.port, [("192.0.2.17", "127.0.0.1")]) as proxy:
            depositor = Depositor(proxy)
            for minute in range(1, minutes + 1):
                depositor.deposit()
                time.sleep(59 + minute % 5 / 2)
            said = load_of(proxy, depositor)
            print("\n".join(it.strip() for it in said.splitlines() if any(word in it for word in ("requests in", "Non-2xx", "Socket errors"))))
            print(server.said(), end="")
            statuses = proxy.statuses()
    wrong = sum(count for status, count in statuses.items() if status >= "5")
    for said, often in collections.Counter(depositor.others).items():
        print(f"{often} of {depositor.count} deposits are answered {said!r}")
    print(f"{sum(statuses.values())} requests, {wrong} of 5xx")
    return int(wrong > 0 or bool(depositor.others))


def answer_through(proxy, target, body=None, source="127.0.0.1", **fields):
    """What the proxy answers to a request from that address: its status, its fields and its body."""
    trust = ssl._create_unverified_context()
    connection = http.client.HTTPSConnection("127.0.0.1", proxy.port, context=trust, source_address=(source, 0))
    connection.request("GET" if body is None else "POST", target, body, fields)
    answer = connection.getresponse()
    found = answer.status, answer.headers, answer.read()
    connection.close()
    return found


def proxy_answers():
    """Compares what clients are answered through nginx, with the lines of web/nginx.conf.

    A response that is compressed, a request with more fields than the server accepts, a deposit from an address that is
    allowed and one from another, and bodies above the limits. Its last line is `N checked, M differ`, and its status is
    0 where M is 0. Packages of Debian: apt-get install nginx-light openssl
    """
    needs("nginx", "openssl")
    trial, deposits = Trial(), "127.0.0.2"
    with tempfile.TemporaryDirectory() as place:
        shutil.copy(TOP / EXAMPLE, f"{place}/archive.json")
        with serve_durably(EXAMPLE, f"{place}/archive") as server, Proxy(place, server.port, [("192.0.2.17", deposits)]) as proxy:
            line = json.dumps(deposit("oai:a:1", [], {"oai_dc": []}))
            status, _, said = answer_through(proxy, "/deposit/a", line, deposits)
            trial.check("a deposit from the allowed address", (status, said[:3]), (200, b"ok "))
            trial.check("a deposit from another address", answer_through(proxy, "/deposit/a", line)[0], 403)
            status, fields, packed = answer_through(proxy, "/oai/a?verb=ListIdentifiers&metadataPrefix=oai_dc", **{"Accept-Encoding": "gzip"})
            trial.check("a compressed response", (status, fields["Content-Encoding"]), (200, "gzip"))
            trial.check("its document", b"<identifier>oai:a:1</identifier>" in gzip.decompress(packed), True)
            many = {f"F{number}": "x" for number in range(70)}
            trial.check("a request of 70 fields", answer_through(proxy, "/oai/a?verb=Identify", **many)[0], 200)
            trial.check("a large form", answer_through(proxy, "/oai/a", bytes(2**20 + 1))[0], 413)
            trial.check("a large deposit", answer_through(proxy, "/deposit/a", bytes(2**21 + 1), deposits)[0], 413)
            trial.check("another path", answer_through(proxy, "/oai/none")[0], 404)
    return trial.ended()
