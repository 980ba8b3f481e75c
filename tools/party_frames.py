"""Frames and records, as docs/formats.md has them, by Python's hmac and hashlib: of parties whose files of keys are there."""

import tomllib
from hashlib import sha256

import party_files
from party_files import FIRST_CLIENT, be, mac

REQUEST, PRE_PREPARE, VIEW_CHANGE, NEW_VIEW, REPLY, FETCH, PAGE = 0x41, 0x42, 0x46, 0x47, 0x48, 0x49, 0x4B
ORDERED, READ_ONLY = 0, 1
# The kinds of records, those that a process reads and those that it writes.
FRAME, TIMER, LINKS = 1, 2, 3


def long(number):
    return number.to_bytes(8, "big")


def piece(text):
    return len(text).to_bytes(4, "big") + text


# ---- records


def record(kind, content):
    return piece(bytes([kind]) + content)


def came(frame):
    return record(FRAME, frame)


def timer_over(number):
    return record(TIMER, long(number))


def linked(count):
    return record(LINKS, bytes([count]))


def goes(receivers, frame):
    return record(FRAME, bytes([len(receivers)]) + b"".join(be(it) for it in receivers) + frame)


def timer_begins(number, milliseconds):
    return record(TIMER, long(number) + milliseconds.to_bytes(4, "big"))


def first_record(text):
    """The kind and the content of the first record, and what is left behind it, or None if it isn't there whole."""
    end = 4 + int.from_bytes(text[:4], "big")
    return (text[4], text[5:end], text[end:]) if len(text) >= max(end, 5) else None


def sent(content):
    """The receivers of a frame that is to go, and the frame."""
    end = 1 + 2 * content[0]
    return [int.from_bytes(content[at : at + 2], "big") for at in range(1, end, 2)], content[end:]


# ---- frames


def signature(seed, number, text):
    """That of the leaf of this number under a signing seed."""
    bits = int.from_bytes(sha256(text).digest(), "big")
    parts = [bytes([number])]
    for bit in range(256):
        value = bits >> (255 - bit) & 1
        parts.append(mac(seed, be(number) + be(bit) + bytes([value])))
        parts.append(sha256(mac(seed, be(number) + be(bit) + bytes([1 - value]))).digest())
    nodes = [party_files.leaf(seed, it) for it in range(64)]
    while len(nodes) > 1:
        parts.append(nodes[number ^ 1])
        nodes = [sha256(left + right).digest() for left, right in zip(nodes[::2], nodes[1::2])]
        number //= 2
    return b"".join(parts)


class Party:
    """A party that has the keys of this file."""

    def __init__(self, text):
        keys = tomllib.loads(text)
        self.number = keys["party"]
        peers = [it for it in range(3 * keys["f"] + 1) if it != self.number]
        peers += range(FIRST_CLIENT, FIRST_CLIENT + keys["clients"]) if self.number < FIRST_CLIENT else ()
        self.to = dict(zip(peers, map(bytes.fromhex, keys["to"])))
        self.seed = bytes.fromhex(keys.get("signing_seed", ""))

    def body(self, kind, fields):
        return bytes([kind]) + be(self.number) + fields

    def sealed(self, receivers, kind, fields):
        body = self.body(kind, fields)
        codes = [be(it) + mac(self.to[it], body) for it in receivers]
        return piece(body) + bytes([0, len(codes)]) + b"".join(codes)

    def signed(self, leaf, kind, fields):
        body = self.body(kind, fields)
        return piece(body) + b"\x01" + signature(self.seed, leaf, body)

    def request(self, receivers, timestamp, mode, operation):
        return self.sealed(receivers, REQUEST, long(timestamp) + bytes([mode]) + operation)

    def reply(self, client, timestamp, mode, number, answer):
        fields = be(client) + long(timestamp) + bytes([mode]) + long(number) + answer
        return self.sealed([client], REPLY, fields)


# ---- the state before the first batch


def first_root():
    """The root of the partition tree over its pages: those of no tuple and no reply, and the one that counts."""
    pages = [b""] * 1024
    pages[512] = b"\x01" + long(0) + long(0)
    digests = [sha256(it).digest() for it in pages]
    inner = [sha256(b"".join(digests[at : at + 32])).digest() for at in range(0, 1024, 32)]
    return sha256(b"".join(inner)).digest()
