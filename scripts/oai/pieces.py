"""Exchanges as the lines of a trace: messages on connections, cut at random and in turns, each line with what `trace` writes for it. What a message is
answered is told by the model.
"""

from typing import NamedTuple

from oai.author import START, Exchange, Transcript
from oai.model import Answer, Host

FORM = "application/x-www-form-urlencoded"

BAD_PIECES = ["x", "1 1", "1 1 0g", "1 1 000", "1 -1 00", "1 18446744073709551616 00", "1 1 End", "1 1 00 ", "x 1 00"]

# Messages that close a connection by a fault, each with its status.
HOST = "Host: h\r\n"
FAULTS = [
    ("\0", 400),
    ("GET / HTTP/1.1\r\n\r\n", 400),
    (f"GET / HTTP/1.1\r\n{HOST}{HOST}\r\n", 400),
    (f"POST /oai/a HTTP/1.1\r\n{HOST}Content-Length: +1\r\n\r\n", 400),
    (f"POST /oai/a HTTP/1.0\r\nContent-Length: 1\r\n{HOST}Content-Length: 1\r\n\r\n", 400),
    (f"POST /oai/a HTTP/1.1\r\n{HOST}Content-Length: 1048577\r\n\r\n", 413),
    (f"GET /oai/a HTTP/1.1\r\n{HOST}Transfer-Encoding: chunked\r\n\r\n", 501),
]
PHRASES = {200: "OK", 400: "Bad Request", 404: "Not Found", 405: "Method Not Allowed", 413: "Content Too Large", 415: "Unsupported Media Type"}
PHRASES |= {501: "Not Implemented", 503: "Service Unavailable"}
TYPES = {"oai": "text/xml", "deposit": "text/plain; charset=utf-8"}
ALLOWED = {"oai": "GET, POST", "deposit": "POST"}


def message(exchange, content_type=FORM, fields="", version="1.1"):
    """An exchange as a message; of a body without a type where that is None."""
    typed = f"Content-Type: {content_type}\r\n" if exchange.method == "POST" and content_type else ""
    length = f"Content-Length: {len(exchange.body.encode())}\r\n" if exchange.body else ""
    return f"{exchange.method} {exchange.target} HTTP/{version}\r\n{HOST}{fields}{typed}{length}\r\n{exchange.body}".encode()


def answer_bytes(answer, closes):
    """An answer as it goes over a connection."""
    fields = [f"HTTP/1.1 {answer.status} {PHRASES[answer.status]}"]
    if answer.status == 200:
        fields.append(f"Content-Type: {TYPES[answer.path]}")
    if answer.status == 405:
        fields.append(f"Allow: {ALLOWED[answer.path]}")
    if answer.status == 503:
        fields.append(f"Retry-After: {answer.seconds}")
    fields += ["Connection: close"] * closes
    fields += [f"Content-Length: {len(answer.body.encode())}", "", answer.body]
    return "\r\n".join(fields).encode()


class Message(NamedTuple):
    """What waits to be sent: the bytes, the exchange that they ask for, whether its body is a form, whether it closes the connection, and the
    status of a fault that is sent in place of the exchange, if it is one."""

    data: bytes
    exchange: Exchange
    is_form: bool = True
    closes: bool = False
    fault: int = 0


class Connection:
    """A connection, with the messages that were not yet sent whole, and how much was sent of the first."""

    def __init__(self, label):
        self.label, self.messages, self.sent = label, [], 0

    def waiting(self):
        return sum(len(it.data) for it in self.messages) - self.sent


class Tracer:
    """Writes the lines of a trace: messages on connections in turns, cut at random, and what a host answers at each line."""

    def __init__(self, author, connections):
        self.author, self.chooser = author, author.chooser
        self.host = Host(author.configuration)
        self.labels = 0
        self.lines, self.answers = [], []
        self.connections = [self.new() for _ in range(connections)]
        self.retired = []

    def new(self):
        self.labels += 1
        return Connection(self.labels)

    def queue(self, exchange, one):
        """Puts an exchange on a connection; one in a while closes it, and the next goes to a new one."""
        at = self.chooser.randrange(len(self.connections))
        if one or not self.author.chance(0.05):
            self.connections[at].messages.append(Message(message(exchange), exchange))
            return
        connection, self.connections[at] = self.connections[at], self.new()
        connection.messages.append(self.last_message(exchange))
        self.retired.append(connection)

    def last_message(self, exchange):
        """A message that closes its connection: a fault in place of the exchange, one of HTTP/1.0, or one that says so, of any type."""
        kind = self.chooser.randrange(4)
        if kind == 0:
            data, status = self.chooser.choice(FAULTS)
            return Message(data.encode(), exchange, closes=True, fault=status)
        if kind == 1:
            return Message(message(exchange, version="1.0"), exchange, closes=True)
        typed = self.chooser.choice([FORM, None, "text/plain", f"{FORM.upper()} ; charset=utf-8"])
        is_form = typed is not None and typed.lower().startswith(FORM)
        return Message(message(exchange, typed, "Connection: x , CLOSE\r\n"), exchange, is_form, closes=True)

    def send(self, connection, count):
        """Sends so many bytes of what waits on a connection, at the moment of the last message that they complete, if any."""
        data = b"".join(it.data for it in connection.messages)[connection.sent :][:count]
        moment, done = connection.messages[0].exchange.moment, []
        connection.sent += len(data)
        while connection.messages and connection.sent >= len(connection.messages[0].data):
            done.append(connection.messages.pop(0))
            connection.sent -= len(done[-1].data)
            moment = done[-1].exchange.moment
        self.write(connection, moment, data.hex(), b"".join(self.perform(it, moment) for it in done))
        if done and done[-1].closes:
            self.close(connection)

    def write(self, connection, moment, what, output):
        shown = what.upper() if what != "end" and self.author.chance(0.1) else what
        self.lines.append(f"{moment} {connection.label} {shown}")
        self.answers.append(f"{connection.label} {output.hex()}\n" if output else "")

    def perform(self, sent, moment):
        if sent.fault:
            return answer_bytes(Answer(sent.fault), True)
        _, method, target, body = sent.exchange
        return answer_bytes(self.host.exchange(moment, method, target, body, sent.is_form), sent.closes)

    def close(self, connection):
        """The connection is closed, and what comes on it later is passed over."""
        self.answers[-1] += f"{connection.label} close\n"
        if connection in self.retired:
            self.retired.remove(connection)
        if self.author.chance(0.3):
            self.write(connection, START, self.chooser.choice(["00", "end", ""]), b"")

    def abandon(self, exchange):
        """A connection that ends within a message, which is not performed."""
        connection = self.new()
        data = message(exchange)
        self.write(connection, exchange.moment, data[: self.chooser.randrange(len(data))].hex(), b"")
        self.write(connection, exchange.moment, "end", b"")
        self.close(connection)

    def send_some(self, most):
        """Sends from one connection or another, until no more than so many bytes wait: none, a few, half of what waits there, or all of it."""
        while True:
            busy = [it for it in self.connections + self.retired if it.messages]
            if sum(it.waiting() for it in busy) <= most or not busy:
                return
            chosen = self.chooser.choice(busy)
            some = self.chooser.randrange(chosen.waiting() + 1)
            self.send(chosen, self.chooser.choice([0, 1, self.chooser.randrange(60), some, chosen.waiting()]))


def traced_script(author, exchanges):
    """The exchanges as messages on one to four connections: the order in which they are performed is that of their last bytes."""
    tracer = Tracer(author, author.chooser.randrange(1, 5))
    for it in exchanges:
        tracer.queue(it, one=False)
        if author.chance(0.01):
            tracer.abandon(it)
        tracer.send_some(author.choice([0, 100, 1000]))
    tracer.send_some(0)
    script = Transcript(tracer.lines, tracer.answers)
    if author.chance(0.1):
        script.spoil(author.chooser, BAD_PIECES, "piece")
    return script


def single_script(author, exchanges):
    """The exchanges as messages on one connection, each cut at random, and the number of lines that each takes to its end."""
    tracer = Tracer(author, 1)
    ends = []
    for it in exchanges:
        tracer.queue(it, one=True)
        tracer.send_some(0)
        ends.append(len(tracer.lines))
    return Transcript(tracer.lines, tracer.answers), ends
