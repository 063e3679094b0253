"""Feeds that the benchmarks make: accounts, batches of transactions drawn at random, and certificates over them."""
import os
import random
import struct
from hashlib import sha256

BATCH = 1_000
MONEY = 1_000_000

# length of the text, kind, count, declared accounts (mode, id), sequence number, from, then the body of the kind
PAY = struct.Struct(">HBBBQBQQQQQ")  # to, amount
PAY_IF = struct.Struct(">HBBBQBQBQQQQQQQ")  # to, amount, guard, min
SWEEP = PAY  # to, keep
SPLIT = struct.Struct(">HBBBQBQBQQQBQQQQ")  # two receivers: to, amount each


def put_frame(out, kind, payload):
    out.write(struct.pack(">BI", kind, len(payload)))
    out.write(payload)


def account_id(index):
    """3, 10, 17 ..: an id is no index."""
    return 7 * index + 3


def batch_of(count, kinds, accounts, seqs, draw, sender_of=None):
    """The payload of a batch: the kinds in turn, between accounts drawn at random. An amount is 1, and a SWEEP keeps
    what accounts had at first, so that most accounts go on having enough to pay."""
    payload = bytearray(2 + count * SPLIT.size)
    struct.pack_into(">H", payload, 0, count)
    at = 2
    for place in range(count):
        kind = kinds[place % len(kinds)]
        sender = int(draw() * accounts) if sender_of is None else sender_of
        to = int(draw() * (accounts - 1))
        to += to >= sender
        low, high = (sender, to) if sender < to else (to, sender)
        seq = seqs[sender]
        seqs[sender] = seq + 1
        if kind in (1, 3):
            layout, value = (PAY, 1) if kind == 1 else (SWEEP, MONEY)
            layout.pack_into(
                payload, at, layout.size - 2, kind, 2, 1, account_id(low), 1, account_id(high),
                seq, account_id(sender), account_id(to), value,
            )
            at += layout.size
            continue
        # a third account: the guard, declared for reading, or the second receiver
        third = int(draw() * (accounts - 2))
        third += third >= low
        third += third >= high
        mode = 0 if kind == 2 else 1
        declared = []
        for index, way in sorted(((low, 1), (high, 1), (third, mode))):
            declared += (way, account_id(index))
        if kind == 2:
            body = (account_id(to), 1, account_id(third), 1)
        else:
            first, second = sorted((to, third))
            body = (2, account_id(first), 1, account_id(second), 1)
        layout = PAY_IF if kind == 2 else SPLIT
        layout.pack_into(payload, at, layout.size - 2, kind, 3, *declared, seq, account_id(sender), *body)
        at += layout.size
    return memoryview(payload)[:at]


def batch_to_new(count, first, senders, of, every, known):
    """The payload of a batch of payments of 1, from the first accounts in turn. Of all `of` payments each `every`th is to an
    account of its own, in no order of their ids, and the others are to the `known` accounts at the front; `every` 0 is none.
    `first` is how many payments there were before."""
    payload = bytearray(2 + count * PAY.size)
    struct.pack_into(">H", payload, 0, count)
    for place in range(count):
        number = first + place
        sender = number % senders
        if every and number % every == 0:
            # 7,919 is a prime above 2: each index below a number that it does not divide comes once
            to = known + number // every * 7_919 % (of // every)
        else:
            to = (sender + 1 + number // senders % (known - 1)) % known
        low, high = (sender, to) if sender < to else (to, sender)
        PAY.pack_into(
            payload, 2 + place * PAY.size, PAY.size - 2, 1, 2, 1, account_id(low), 1, account_id(high),
            number // senders, account_id(sender), account_id(to), 1,
        )
    return payload


def put_opening(out, keys, accounts, version=1):
    """The magic of a version, the committee of these keys, each of weight 1, and the accounts."""
    out.write(b"BKF%d" % version)
    weights = struct.pack(">I", 1) * len(keys) if version == 2 else b""
    put_frame(out, 1, bytes([len(keys)]) + b"".join(keys) + weights)
    rows = bytearray(struct.pack(">I", accounts))
    for index in range(accounts):
        rows += struct.pack(">QQQ", account_id(index), MONEY, 0)
    put_frame(out, 2, rows)


class TagKey:
    """HMAC-SHA-256 under a key of 32 bytes, of which what depends on the key alone is hashed once."""

    def __init__(self, key):
        self.inner, self.outer = (sha256(bytes(byte ^ pad for byte in key.ljust(64, b"\0"))) for pad in (0x36, 0x5C))

    def tag(self, text):
        inner, outer = self.inner.copy(), self.outer.copy()
        inner.update(text)
        outer.update(inner.digest())
        return outer.digest()


class Committee:
    """Members who each make one certificate a round, on all of the round before, with the tags of a quorum."""

    def __init__(self, members):
        self.keys = [sha256(b"member %d" % member).digest() for member in range(members)]
        self.quorum = members - (members - 1) // 3
        self.signers = [TagKey(key) for key in self.keys[: self.quorum]]
        self.mask = sum(1 << member for member in range(self.quorum)).to_bytes(16, "little")
        self.round = 0
        self.parents = []

    def next_round(self, batches):
        """The certificates of the next round: each names its share of these digests."""
        self.round += 1
        ids, certificates = [], []
        for member in range(len(self.keys)):
            named = batches[member :: len(self.keys)]
            head = struct.pack(">BIH", member, self.round, len(named)) + b"".join(named)
            head += bytes([len(self.parents)]) + b"".join(self.parents)
            name = sha256(b"\x10" + head).digest()
            tags = b"".join(signer.tag(name) for signer in self.signers)
            certificates.append(head + self.mask + tags)
            ids.append(name)
        self.parents = sorted(ids)
        return certificates

    def put_round(self, out, batches):
        for certificate in self.next_round(batches):
            put_frame(out, 3, certificate)


def make_ordered(path, members, kinds, accounts, transactions, sender_of=None, rounds=0):
    """A feed whose certificates order all of its batches, one batch a certificate, over at least so many rounds."""
    draw = random.Random(accounts * 31 + transactions).random
    seqs = [0] * accounts
    committee = Committee(members)
    with open(path, "wb", buffering=1 << 20) as out:
        put_opening(out, committee.keys, accounts)
        left = transactions
        while left > 0 or committee.round < rounds:
            digests = []
            while left > 0 and len(digests) < members:
                count = min(BATCH, left)
                payload = batch_of(count, kinds, accounts, seqs, draw, sender_of)
                put_frame(out, 4, payload)
                digests.append(sha256(payload).digest())
                left -= count
            committee.put_round(out, digests)
        # an anchor above all of them, and its votes
        for _ in range(3):
            committee.put_round(out, [])
    return os.path.getsize(path)


def make_growing(path, version, transactions, every, senders=1_000, known=1_000):
    """A feed of one member whose payments each `every` times are to an account of its own: in version Two it comes to be by
    that, in version One all of them are there from the start."""
    committee = Committee(1)
    of = max(transactions, 1)
    accounts = known + (of // every if every and version == 1 else 0)
    with open(path, "wb", buffering=1 << 20) as out:
        put_opening(out, committee.keys, accounts, version)
        for first in range(0, transactions, BATCH):
            payload = batch_to_new(min(BATCH, transactions - first), first, senders, of, every, known)
            put_frame(out, 4, payload)
            committee.put_round(out, [sha256(payload).digest()])
        for _ in range(3):
            committee.put_round(out, [])
    return os.path.getsize(path)


def make_certificates(folder, members, count):
    """Feeds of some `count` certificates, which name no batch: in order, reversed and shuffled. Returns their paths by
    these words, the number of certificates, and the length of one in bytes."""
    committee = Committee(members)
    certificates = []
    for _ in range(count // members):
        certificates += committee.next_round([])
    paths = {}
    for arrangement in ("in order", "reversed", "shuffled"):
        if arrangement == "reversed":
            certificates.reverse()
        elif arrangement == "shuffled":
            random.Random(count).shuffle(certificates)
        paths[arrangement] = os.path.join(folder, arrangement)
        with open(paths[arrangement], "wb", buffering=1 << 20) as out:
            put_opening(out, committee.keys, 0)
            for certificate in certificates:
                put_frame(out, 3, certificate)
    return paths, len(certificates), max(map(len, certificates))
