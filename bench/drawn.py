"""Feeds drawn at random: committees of both versions, certificates that wait, repeat, are twins or are broken, and
transactions of all kinds on few accounts; and a plain reader of feeds."""
import hmac
import struct
from hashlib import sha256

MOST_PAYLOAD = 16_777_216
QUORUM_RULE = 6


def frame(kind, payload):
    return struct.pack(">BI", kind, len(payload)) + payload


class Committee:
    def __init__(self, version, keys, weights):
        self.version, self.keys, self.weights = version, keys, weights
        self.n = len(keys)
        self.total = sum(weights)
        self.faulty = (self.total - 1) // 3
        self.quorum = self.total - self.faulty

    def payload(self):
        weights = b"".join(struct.pack(">I", weight) for weight in self.weights) if self.version == 2 else b""
        return bytes([self.n]) + b"".join(self.keys) + weights

    def weight(self, members):
        return sum(self.weights[member] for member in set(members) if member < self.n)

    def signers(self, draw):
        """Members who together are a quorum, drawn at random."""
        members = list(range(self.n))
        draw.shuffle(members)
        chosen = []
        for member in members:
            chosen.append(member)
            if self.weight(chosen) >= self.quorum:
                break
        return sorted(chosen)


def header(author, number, batches, parents):
    return (struct.pack(">BIH", author, number, len(batches)) + b"".join(batches)
            + bytes([len(parents)]) + b"".join(parents))


def id_of(head):
    return sha256(b"\x10" + head).digest()


def sealed(committee, head, signers):
    mask = sum(1 << signer for signer in signers).to_bytes(16, "little")
    name = id_of(head)
    keys = [committee.keys[signer] if signer < committee.n else b"\0" * 32 for signer in sorted(signers)]
    return head + mask + b"".join(hmac.digest(key, name, "sha256") for key in keys)


# ---- drawing


def draw_committee(draw, version):
    n = draw.choice((1, 1, 2, 3, 4, 4, 4, 4, 5, 6, 7, 10))
    keys = [draw.randbytes(32) for _ in range(n)]
    weights = [draw.choice((1, 1, 1, 2, 5)) for _ in range(n)] if version == 2 else [1] * n
    return Committee(version, keys, weights)


def draw_accounts(draw):
    ids = sorted(draw.sample(range(1, 9), draw.randrange(0, 7)))
    return [(name, draw.choice((0, 50, 100, 1000)), draw.choice((0, 0, 0, 2))) for name in ids]


def draw_amount(draw):
    return draw.choice((0, 1, 5, 30, 100, 2**63, 2**64 - 1)) if draw.random() < 0.5 else draw.randrange(40)


def draw_transaction(draw, seqs):
    """The bytes of a transaction: mostly one that is good, on accounts 1 to 9."""
    if draw.random() < 0.05:
        return draw.randbytes(draw.randrange(0, 40))
    kind, sender, to, third = draw.randrange(1, 5), *(draw.randrange(1, 10) for _ in range(3))
    writes, reads = {sender, to}, set()
    if kind == 1:
        body = struct.pack(">QQ", to, draw_amount(draw))
    elif kind == 2:
        body = struct.pack(">QQQQ", to, draw_amount(draw), third, draw.choice((0, 10, 50, 200)))
        reads = {third} - writes
    elif kind == 3:
        body = struct.pack(">QQ", to, draw.choice((0, 10, 50)))
    else:
        receivers = sorted(draw.sample(range(1, 10), draw.randrange(1, 7)))
        writes = {sender, *receivers}
        body = bytes([len(receivers)]) + b"".join(struct.pack(">QQ", r, draw_amount(draw)) for r in receivers)
    entries = [(name, 1) for name in writes] + [(name, 0) for name in reads]
    if draw.random() < 0.1:
        entries = [(name, draw.randrange(2)) for name, _ in entries if draw.random() < 0.8] or entries
    if draw.random() < 0.1:
        entries = list({**{draw.randrange(1, 10): draw.randrange(2)}, **dict(entries)}.items())
    entries = sorted(entries)[:8]
    seq = seqs.get(sender, 0)
    if draw.random() < 0.9:
        seqs[sender] = seq + 1
    else:
        seq = draw.choice((0, seq + 1, 2**63, 2**64 - 1))
    text = bytes([kind, len(entries)]) + b"".join(struct.pack(">BQ", mode, name) for name, mode in entries)
    text += struct.pack(">QQ", seq, sender) + body
    return text if draw.random() > 0.02 else text[: draw.randrange(len(text))]


def draw_batch(draw, seqs):
    if draw.random() < 0.05:
        return draw.randbytes(draw.randrange(0, 12))
    texts = [draw_transaction(draw, seqs) for _ in range(draw.choice((0, 1, 2, 5, 12, 30)))]
    return struct.pack(">H", len(texts)) + b"".join(struct.pack(">H", len(text)) + text for text in texts)


def broken(draw, committee, number, author, batches, parents):
    """The payload of a certificate that breaks a rule, most likely."""
    signers = committee.signers(draw)
    way = draw.randrange(9)
    if way == 0:
        author = committee.n + draw.randrange(3)
    elif way == 1:
        number = draw.choice((0, 1_000_001, 2**32 - 1))
    elif way == 2:
        parents = parents[: len(parents) // 3]
    elif way == 3:
        parents = parents[::-1] + parents[:1]
    elif way == 4:
        signers = signers[:-1]
    elif way == 5:
        signers = signers + [committee.n]
    payload = bytearray(sealed(committee, header(author, number, batches, parents), signers))
    if way == 6:
        payload[-1 - draw.randrange(min(32, len(payload)))] ^= 1 << draw.randrange(8)
    elif way == 7:
        payload += b"\0"
    elif way == 8:
        del payload[draw.randrange(len(payload)):]
    return bytes(payload)


def draw_certificates(draw, committee, digests):
    """The payloads of certificates over some rounds, in their order."""
    payloads, last = [], []
    with_twins, gap = draw.random() < 0.08, draw.random() < 0.3
    for number in range(1, draw.choice((1, 2, 3, 5, 8, 12)) + 1):
        now = []
        for author in range(committee.n):
            if draw.random() < 0.1:
                continue
            parents = sorted(draw_parents(draw, committee, last, gap)) if number > 1 else []
            if number > 1 and not parents:
                continue
            batches = [draw.choice(digests) for _ in range(draw.choice((0, 0, 1, 1, 2, 4)))] if digests else []
            if draw.random() < 0.03:
                batches.append(draw.randbytes(32))
            head = header(author, number, batches, parents)
            if draw.random() < 0.06:
                payloads.append(broken(draw, committee, number, author, batches, parents))
                if draw.random() < 0.5:
                    continue
            payloads.append(sealed(committee, head, committee.signers(draw)))
            if draw.random() < 0.05:
                payloads.append(sealed(committee, head, committee.signers(draw)))
            if with_twins and draw.random() < 0.1:
                twin = header(author, number, batches + [draw.randbytes(32)], parents)
                payloads.append(sealed(committee, twin, committee.signers(draw)))
            now.append((author, id_of(head)))
        last = now
    return payloads


def draw_parents(draw, committee, last, gap):
    """Ids of the round before, of a quorum of authors or more where there are so many."""
    pairs = last[:]
    draw.shuffle(pairs)
    least = draw.choice((committee.quorum, committee.quorum, committee.total))
    chosen = []
    for author, name in pairs:
        if committee.weight(a for a, _ in chosen) >= least and draw.random() < 0.7:
            break
        chosen.append((author, name))
    ids = {name for _, name in chosen}
    if gap and draw.random() < 0.05:
        ids.add(draw.randbytes(32))
    if committee.version == 2 and draw.random() < 0.03:
        ids = set(list(ids)[:1])
    return ids


def draw_feed(draw):
    """The magic and the frames of a feed."""
    version = draw.randrange(1, 3)
    committee = draw_committee(draw, version)
    rows = draw_accounts(draw)
    seqs = {name: seq for name, _, seq in rows}
    batches = [draw_batch(draw, seqs) for _ in range(draw.choice((0, 1, 3, 6, 10)))]
    digests = [sha256(batch).digest() for batch in batches]
    later = [(3, payload) for payload in draw_certificates(draw, committee, digests)]
    later += [(4, batch) for batch in batches if draw.random() > 0.04]
    if batches and draw.random() < 0.2:
        later.append((4, draw.choice(batches)))
    if draw.random() < 0.7:
        draw.shuffle(later)
    genesis = struct.pack(">I", len(rows)) + b"".join(struct.pack(">QQQ", *row) for row in rows)
    return b"BKF%d" % version, [(1, committee.payload()), (2, genesis), *later]


def bytes_of(magic, frames):
    return magic + b"".join(frame(kind, payload) for kind, payload in frames)


# ---- reading


def committee_of(version, payload):
    n = payload[0] if payload else 0
    if not 1 <= n <= 128 or len(payload) != 1 + n * (32 if version == 1 else 36):
        return None
    weights = [1] * n
    if version == 2:
        weights = list(struct.unpack_from(f">{n}I", payload, 1 + 32 * n))
    return Committee(version, [payload[1 + 32 * i : 33 + 32 * i] for i in range(n)], weights) if all(weights) else None


def is_genesis(payload):
    if len(payload) < 4:
        return False
    count = struct.unpack_from(">I", payload)[0]
    if count > 600_000 or len(payload) != 4 + 24 * count:
        return False
    rows = list(struct.iter_unpack(">QQQ", payload[4:]))
    ids = [row[0] for row in rows]
    ascend = all(a < b for a, b in zip(ids, ids[1:]))
    return ascend and all(row[2] < 2**63 for row in rows) and sum(row[1] for row in rows) < 2**63


def read_feed(data):
    """The magic and frames of a feed; else the code and the offset of its first fault."""
    if data[:4] not in (b"BKF1", b"BKF2"):
        cut = len(data) < 4 and b"BKF1".startswith(data)
        return (2, 0) if cut else (1, 0)
    at, frames = 4, []
    while at < len(data) or len(frames) < 2:
        code, end = frame_fault(data, at, len(frames))
        if code:
            return code, at
        frames.append((data[at], data[at + 5 : end]))
        at = end
    return data[:4], frames


def frame_fault(data, at, number):
    """The code of the first fault of the frame that begins here, 0 where it has none, and where it ends."""
    if at == len(data):
        return 2, at
    kind = data[at]
    if not 1 <= kind <= 4:
        return 3, at
    if number < 2 and kind != number + 1:
        return 5 + number, at
    if number >= 2 and kind < 3:
        return 7, at
    if at + 5 > len(data):
        return 2, at
    end = at + 5 + int.from_bytes(data[at + 1 : at + 5], "big")
    if end - at - 5 > MOST_PAYLOAD or end > 2**32 - 1:
        return 4, at
    if end > len(data):
        return 2, at
    payload = data[at + 5 : end]
    if number == 0 and committee_of(data[3] - 48, payload) is None:
        return 5, at
    if number == 1 and not is_genesis(payload):
        return 6, at
    return 0, end


def verdict(committee, payload):
    """The least rule that a certificate breaks, or None; and its round, author and batches."""
    try:
        author, number, count = struct.unpack_from(">BIH", payload)
        batches = [payload[7 + 32 * i : 39 + 32 * i] for i in range(count)]
        at = 7 + 32 * count
        parents = [payload[at + 1 + 32 * i : at + 33 + 32 * i] for i in range(payload[at])]
        end = at + 1 + 32 * payload[at]
        mask = int.from_bytes(payload[end : end + 16], "little")
    except (struct.error, IndexError):
        return 0, None
    signers = [i for i in range(128) if mask >> i & 1]
    if count > 1000 or len(parents) > 128 or len(payload) != end + 16 + 32 * len(signers):
        return 0, None
    head, tags = payload[:end], payload[end + 16 :]
    found = (number, author, batches)
    if author >= committee.n:
        return 1, found
    if not 1 <= number <= 1_000_000:
        return 2, found
    least = committee.quorum if committee.version == 1 else 1
    if bool(parents) if number == 1 else not least <= len(parents) <= committee.n:
        return 3, found
    if any(a >= b for a, b in zip(parents, parents[1:])):
        return 4, found
    if any(signer >= committee.n for signer in signers):
        return 5, found
    if committee.weight(signers) < committee.quorum:
        return QUORUM_RULE, found
    name = id_of(head)
    good = b"".join(hmac.digest(committee.keys[signer], name, "sha256") for signer in signers)
    return (None if good == tags else 7), found
