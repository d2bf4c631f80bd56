"""Reads the file of a journal, as docs/FORMAT.md describes it."""

import os

# The open commit bytes, each of which is followed by a whole record.
OPEN = (b"+", b"&")

# The kinds of records that are parts of a checkpoint.
PARTS = ("begin", "set", "item", "list", "gone")


class Journal:
    """The records of a journal's file, read on from where it ended before."""

    def __init__(self, path):
        self.path, self.at, self.known = path, 0, b""

    def was_replaced(self):
        """Whether another file stands in the place of the one that was read; it is then read from its beginning."""
        with open(self.path, "rb") as file:
            held = file.read(self.at)
        if held == self.known:
            return False
        self.at, self.known = 0, b""
        return True

    def read_on(self):
        """The records that came since, as tuples of a moment, a kind, a name and a body; None where those of before are others now."""
        with open(self.path, "rb") as file:
            held = file.read()
        if held[: self.at] != self.known:
            return None
        records, self.at = records_in(held, self.at)
        self.known = held[: self.at]
        return records


def records_in(held, at=0):
    """The records in the bytes of a journal's file from there on, and where they end."""
    records = []
    while held[at : at + 1] in OPEN:
        end = held.index(b"\n", at)
        moment, kind, name, length, _ = held[at + 1 : end].decode().split(" ")
        body = held[end + 1 : end + 1 + int(length)]
        records.append((int(moment), kind, name, body.decode(errors="replace")))
        at = end + 2 + int(length)
    return records, at


def split_parts(records):
    """The parts of a checkpoint that a journal begins with behind its first record, and the records behind them."""
    end = next((it for it, record in enumerate(records) if it and record[1] not in PARTS), len(records))
    return records[1:end], records[end:]


def sip_hash(data):
    """SipHash-1-3 of the bytes, under the keys 0 and 0."""
    v0, v1, v2, v3 = 0x736F6D6570736575, 0x646F72616E646F6D, 0x6C7967656E657261, 0x7465646279746573
    mask = (1 << 64) - 1

    def rotated(x, by):
        return (x << by | x >> (64 - by)) & mask

    def turn():
        nonlocal v0, v1, v2, v3
        v0, v2 = (v0 + v1) & mask, (v2 + v3) & mask
        v1, v3 = rotated(v1, 13) ^ v0, rotated(v3, 16) ^ v2
        v0, v2 = (rotated(v0, 32) + v3) & mask, (v2 + v1) & mask
        v3, v1 = rotated(v3, 21) ^ v0, rotated(v1, 17) ^ v2
        v2 = rotated(v2, 32)

    whole = len(data) // 8 * 8
    words = [data[at : at + 8] for at in range(0, whole, 8)] + [data[whole:].ljust(7, b"\0") + bytes([len(data) % 256])]
    for word in (int.from_bytes(it, "little") for it in words):
        v3 ^= word
        turn()
        v0 ^= word
    v2 ^= 0xFF
    for _ in range(3):
        turn()
    return v0 ^ v1 ^ v2 ^ v3


def set_version(path, version):
    """Gives the first record of a journal another version, of one digit, and each frame the digest that it then has."""
    with open(path, "rb") as file:
        held = file.read()
    at, digest, frames = 0, 0, []
    while held[at : at + 1] in OPEN:
        end = held.index(b"\n", at)
        head = held[at + 1 : end].rpartition(b" ")[0] + b" "
        body = held[end + 1 : end + 1 + int(head.split()[3])]
        body = body if frames else str(version).encode() + body[1:]
        digest = sip_hash(digest.to_bytes(8, "little") + head + body) or 1
        frames.append(held[at : at + 1] + head + b"%016x\n" % digest + body + b"\n")
        at = end + 2 + len(body)
    with open(path, "wb") as file:
        file.write(b"".join(frames) + b"-")


def item_bytes(path):
    """The bytes of the items of a checkpoint, and how many there are."""
    total = count = 0
    with open(path, "rb") as file:
        while file.read(1) in OPEN:
            _, kind, _, length, _ = file.readline().decode().split(" ")
            file.seek(int(length) + 1, os.SEEK_CUR)
            if kind == "item":
                total, count = total + int(length), count + 1
    return total, count
