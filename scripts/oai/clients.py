"""What is asked of a server."""

import socket
import time

from oai.items import LISTED, NAME, TOKEN, body_of


def exchange(connection, path, body=None):
    """The status and the text of the answer."""
    connection.request("POST" if body is not None else "GET", path, body)
    answer = connection.getresponse()
    return answer.status, answer.read().decode()


def get(connection, query):
    """The status and the body of the answer to a request."""
    connection.request("GET", f"/oai/{NAME}?{query}")
    answer = connection.getresponse()
    return answer.status, answer.read()


def post(connection, lines):
    """Deposits the lines, and gives the lines that answer them."""
    return post_body(connection, body_of(lines))


def post_body(connection, body):
    """Deposits the lines of a body, and gives the lines that answer them."""
    status, said = exchange(connection, f"/deposit/{NAME}", body)
    if status != 200:
        raise SystemExit(f"a deposit was answered {status}: {said!r}")
    return said.splitlines()


def token_of(document):
    """The token of a document that is not the last part of its list."""
    found = TOKEN.search(document)
    return found and found[1].decode()


class Client:
    """A connection to a server, and for how many seconds its answers were waited for."""

    def __init__(self, server):
        self.connection, self.waited = server.connect(), 0.0

    def timed(self, work, *arguments):
        begun = time.perf_counter()
        answer = work(self.connection, *arguments)
        self.waited += time.perf_counter() - begun
        return answer

    def get(self, query):
        """The document that answers a request."""
        status, document = self.timed(get, query)
        if status != 200:
            raise SystemExit(f"{query} was answered {status}")
        return document

    def post(self, bodies):
        """Posts the bodies; the lines that answer. The time in which the bodies are generated is not waited for."""
        said = []
        for body in bodies:
            said += self.timed(post_body, body)
        if not all(it.startswith("ok ") for it in said):
            raise SystemExit(f"a line was refused: {[it for it in said if not it.startswith('ok ')][:3]}")
        return said

    def harvest(self, verb, arguments=""):
        """Reads a list to its end; how many headers it has, and its tokens."""
        count, tokens, query = 0, [], f"verb={verb}&{LISTED}{arguments}"
        while query:
            document = self.get(query)
            count += document.count(b"</header>")
            token = token_of(document)
            tokens += [token] if token else []
            query = token and f"verb={verb}&resumptionToken={token}"
        return count, tokens


def open_socket(port, room=None):
    """A connection without a client of HTTP; `room` is how many bytes of answers it holds."""
    client = socket.socket()
    if room:
        client.setsockopt(socket.SOL_SOCKET, socket.SO_RCVBUF, room)
    client.connect(("127.0.0.1", port))
    client.setsockopt(socket.IPPROTO_TCP, socket.TCP_NODELAY, 1)
    return client


def request_of(target, ending=b"\r\n"):
    """The bytes of a GET of the target, with that end of line."""
    return ending.join([b"GET " + target.encode() + b" HTTP/1.1", b"Host: h", b"", b""])


def receive(client):
    return client.recv(1 << 20) or closed()


def closed():
    raise ConnectionError("the server closed the connection")


def read_answer(client):
    """Reads one answer to the end of its body."""
    data = b""
    while b"\r\n\r\n" not in data:
        data += receive(client)
    head, _, body = data.partition(b"\r\n\r\n")
    sizes = [int(it.split(b":")[1]) for it in head.split(b"\r\n") if it.lower().startswith(b"content-length:")]
    while sizes and len(body) < sizes[0]:
        body += receive(client)
    return body
