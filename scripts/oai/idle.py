"""Clients that send nothing, or read nothing."""

import time

from oai.clients import get, open_socket, request_of
from oai.items import NAME, configuration
from oai.servers import Server

# Within how many seconds the server closes the connection of a client that sends nothing, and of one that reads nothing; and how early that may be.
SENDS_NOTHING = 80
READS_NOTHING = 300
SOONEST = 50

# Within how many seconds a server of many connections serves the next one.
AT_ONCE = 2

# What is asked of it without reading: its answers are more than any buffer between the two holds.
REQUEST = request_of(f"/oai/{NAME}?verb=Identify")
REQUESTS = 100_000


def asks(client):
    """Asks on, and reads nothing, until nothing that is sent is taken any more."""
    client.settimeout(2)
    try:
        client.sendall(REQUEST * REQUESTS)
    except TimeoutError:
        return
    raise SystemExit("the server took all requests of a client that reads nothing")


def is_closed(server, idle, what, most):
    """Whether the next client is served within so many seconds after the idle one did its part, and not at once."""
    with open_socket(server.port, room=4096) as client:
        idle(client)
        begun = time.monotonic()
        next_one = server.connect(most)
        try:
            status, _ = get(next_one, "verb=Identify")
        except OSError:
            status = None
        next_one.close()
        passed = time.monotonic() - begun
    served = status == 200 and (passed < AT_ONCE if server.durable else passed > SOONEST)
    print(f"{what}: the next one is {'served' if status == 200 else 'not served'} after {passed:.0f} seconds")
    return served


def idle_clients():
    """Shows that a client which sends or reads nothing does not keep the others waiting for ever.

    One sends nothing, and another one reads nothing of what it is answered. The server closes the connection once a
    read, or a write, has done nothing for 60 seconds, and serves the next one. The first is closed after a minute, the
    second after some three: the buffers of the system take a part of what is written at last. The status is 0 where that is
    so. Where OAIHOSTD is set that program is tried, which serves the next client at once.
    """
    with Server(configuration(100, 60, 10, 10)) as server:
        each = [
            is_closed(server, lambda client: None, "a client that sends nothing", SENDS_NOTHING),
            is_closed(server, asks, "a client that reads nothing", READS_NOTHING),
        ]
    print("idle-clients: each connection was closed in time" if all(each) else "idle-clients: the connection of a client that does nothing is not closed in time")
    return int(not all(each))
