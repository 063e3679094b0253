#!/usr/bin/env python3
"""Reads feeds for bkreplay, frame by frame, without judging certificates. It needs Python 3.7 or later and nothing else.

usage: docs/feed_reader.py FILE       writes a line for each frame

It shows what the bytes say. What of it counts is for `bkreplay frames`, `summary` and `run` to say.
"""
import sys
from collections import namedtuple
from hashlib import sha256
from struct import unpack

Committee = namedtuple("Committee", "keys weights")
Genesis = namedtuple("Genesis", "accounts")
Certificate = namedtuple("Certificate", "id author round batches parents signers tags")
Batch = namedtuple("Batch", "digest transactions")
Unread = namedtuple("Unread", "kind payload")
Transaction = namedtuple("Transaction", "kind declared seq sender body")


class Bytes:
    """Bytes that are taken from the front."""

    def __init__(self, payload):
        self.left = memoryview(payload)

    def take(self, count):
        if count > len(self.left):
            raise ValueError(f"{len(self.left)} bytes are left, and {count} are needed")
        found, self.left = bytes(self.left[:count]), self.left[count:]
        return found

    def number(self, bits):
        return int.from_bytes(self.take(bits // 8), "big")

    def end(self):
        if self.left:
            raise ValueError(f"{len(self.left)} bytes follow")


def committee(payload, weighted):
    read = Bytes(payload)
    members = read.number(8)
    keys = [read.take(32) for _ in range(members)]
    weights = [read.number(32) if weighted else 1 for _ in range(members)]
    read.end()
    return Committee(keys, weights)


def genesis(payload):
    read = Bytes(payload)
    accounts = [(read.number(64), read.number(64), read.number(64)) for _ in range(read.number(32))]
    read.end()
    return Genesis(accounts)


def certificate(payload):
    read = Bytes(payload)
    author, round = read.number(8), read.number(32)
    batches = [read.take(32) for _ in range(read.number(16))]
    parents = [read.take(32) for _ in range(read.number(8))]
    header = payload[: len(payload) - len(read.left)]
    mask = int.from_bytes(read.take(16), "little")
    signers = [member for member in range(128) if mask >> member & 1]
    tags = [read.take(32) for _ in signers]
    read.end()
    return Certificate(sha256(b"\x10" + header).digest(), author, round, batches, parents, signers, tags)


def batch(payload):
    """A batch with its transactions as bytes; `transactions` is None where the batch is void."""
    digest, read = sha256(payload).digest(), Bytes(payload)
    try:
        transactions = [read.take(read.number(16)) for _ in range(read.number(16))]
        read.end()
    except ValueError:
        transactions = None
    return Batch(digest, transactions)


def transaction(text):
    """The parts of a transaction's bytes that every kind has, and the rest; a ValueError if it is too short for them."""
    read = Bytes(text)
    kind, declared = read.number(8), []
    for _ in range(read.number(8)):
        mode = read.number(8)
        declared.append((read.number(64), mode))
    return Transaction(kind, declared, read.number(64), read.number(64), bytes(read.left))


def frames(source):
    """The frames of a feed that is read from `source`, a binary file: a Committee, a Genesis, and then certificates and
    batches; a frame whose payload has another form is Unread. A ValueError says where the bytes are no feed."""
    magic = source.read(4)
    if magic not in (b"BKF1", b"BKF2"):
        raise ValueError("the first bytes are neither BKF1 nor BKF2")
    readers = {1: lambda payload: committee(payload, magic == b"BKF2"), 2: genesis, 3: certificate, 4: batch}
    at = 4
    while True:
        head = source.read(5)
        if not head:
            return
        kind, length = unpack(">BI", head) if len(head) == 5 else (0, 0)
        payload = source.read(length)
        if kind not in readers or len(payload) != length:
            raise ValueError(f"the frame at byte {at} is not whole, or of no kind")
        try:
            found = readers[kind](payload)
        except ValueError:
            found = Unread(kind, payload)
        yield at, found
        at += 5 + length


def shown(found):
    """A frame in words."""
    if isinstance(found, Committee):
        return f"committee members {len(found.keys)} weights {' '.join(map(str, found.weights))}"
    if isinstance(found, Genesis):
        return f"genesis accounts {len(found.accounts)} money {sum(balance for _, balance, _ in found.accounts)}"
    if isinstance(found, Certificate):
        return (f"certificate {found.id.hex()} round {found.round} author {found.author} batches {len(found.batches)} "
                f"parents {len(found.parents)} signers {' '.join(map(str, found.signers))}")
    if isinstance(found, Batch):
        count = "void" if found.transactions is None else len(found.transactions)
        return f"batch {found.digest.hex()} transactions {count}"
    return f"a payload of kind {found.kind} that is not of its form"


if __name__ == "__main__":
    if len(sys.argv) != 2:
        sys.exit(__doc__)
    try:
        with open(sys.argv[1], "rb") as file:
            for at, found in frames(file):
                print(at, shown(found))
    except (OSError, ValueError) as error:
        sys.exit(f"{sys.argv[1]}: {error}")
