"""A relay between a program and a server: each exchange has a connection of its own, and may be cut."""

import socket
import threading
import time

from oai.servers import PATIENCE

FIELDS_END = b"\r\n\r\n"

BAD_TOKEN = b"""<?xml version="1.0" encoding="UTF-8"?>
<OAI-PMH xmlns="http://www.openarchives.org/OAI/2.0/"><responseDate>2026-01-01T00:00:00Z</responseDate>
<request verb="ListRecords">http://source.example/oai</request><error code="badResumptionToken">It has expired.</error></OAI-PMH>
"""


def answer_of(status, fields=b"", body=b""):
    return b"HTTP/1.1 %s\r\n%sContent-Length: %d\r\nConnection: close\r\n\r\n%s" % (status, fields, len(body), body)


LATER = answer_of(b"503 Service Unavailable", b"Retry-After: 1\r\n")
REFUSED_TOKEN = answer_of(b"200 OK", b"Content-Type: text/xml\r\n", BAD_TOKEN)


def read_message(connection):
    """A request, whole."""
    data = b""
    while FIELDS_END not in data:
        more = connection.recv(65536)
        if not more:
            return data
        data += more
    head, _, body = data.partition(FIELDS_END)
    lengths = [int(it.split(b":")[1]) for it in head.split(b"\r\n") if it.lower().startswith(b"content-length:")]
    while lengths and len(body) < lengths[0]:
        more = connection.recv(65536)
        if not more:
            break
        body += more
    return head + FIELDS_END + body


def read_to_end(connection):
    parts = []
    while more := connection.recv(65536):
        parts.append(more)
    return b"".join(parts)


class Relay:
    """Listens on a port of its own, and hands on what comes to a server. `cuts` are what is done to exchanges, each once, at the next request that
    has its text: a pair of a text and a function of the request and the relay, which gives the answer."""

    def __init__(self, port_of):
        self.port_of, self.cuts = port_of, []
        self.listening = socket.create_server(("127.0.0.1", 0), backlog=16)
        self.port = self.listening.getsockname()[1]
        threading.Thread(target=self.serve, daemon=True).start()

    def serve(self):
        while True:
            connection, _ = self.listening.accept()
            with connection:
                try:
                    self.exchange(connection)
                except OSError:
                    pass

    def exchange(self, connection):
        connection.sendall(self.respond(read_message(connection)))

    def respond(self, request):
        """What is handed back: what the server answers, or what a cut makes of that."""
        for cut in self.cuts:
            if cut[0] in request:
                self.cuts.remove(cut)
                return cut[1](request, self)
        return self.answer(request)

    def answer(self, request):
        """What the server answers."""
        with self.connect() as server:
            server.sendall(request)
            return read_to_end(server)

    def connect(self):
        return socket.create_connection(("127.0.0.1", self.port_of()), timeout=PATIENCE)


# ---- cuts, in which the server is killed, and started again where that is wanted


def cut_answer(server, restart):
    """Half of an answer is handed on, and the server is killed; and started again behind that, where it is said so."""

    def cut(request, relay):
        answer = relay.answer(request)
        end(server, restart)
        return answer[: len(answer) // 2]

    return cut


def cut_request(server, restart):
    """Half of a request is handed on, and the server is killed."""

    def cut(request, relay):
        with relay.connect() as it:
            it.sendall(request[: len(request) // 2])
            time.sleep(0.2)
            end(server, restart)
        return b""

    return cut


def drop_answer(server, restart):
    """A request is handed on, and the server is killed once it has answered; nobody is told."""

    def cut(request, relay):
        relay.answer(request)
        end(server, restart)
        return b""

    return cut


def end(server, restart):
    server.kill()
    if restart:
        threading.Timer(1, server.start).start()
