"""A plain reading of the tables of a feed and of the line that links it to others, from the bytes of the feed by the
definitions alone. All but the batches also take lines of the report of `run`."""
import struct
from hashlib import sha256

from drawn import committee_of, verdict
from readings import admitted_of, committed_of, history_of, leader_of, payments_of, shown, step_of, texts_of, votes_of

KINDS = {1: "pay", 2: "payif", 3: "sweep", 4: "split"}
PAYMENTS = "place,batch,item,kind,from,seq,to,amount,guard,min,keep,status,paid"
POSTINGS = "place,status,account,role,amount,balance,seq"
BATCHES = "batch,digest,round,author,anchor,transactions"


def receipts_of(report):
    """The status of each executed place and what moved."""
    return [tuple(map(int, line.split()[2:])) for line in report if line.startswith("tx ")]


def places_of(batches):
    """The batch and the bytes of each executed transaction."""
    return [(index, text) for index, payload in enumerate(batches) for text in texts_of(payload) or []]


def row(*fields):
    return ",".join("" if field is None else str(field) for field in fields)


def asked_of(text):
    """What each payment of a well-formed transaction asks for: receiver, amount, guard, least balance, what is kept."""
    body = text[2 + 9 * text[1] + 16 :]
    if text[0] == 4:
        return [(to, amount, None, None, None) for to, amount in struct.iter_unpack(">QQ", body[1:])]
    first, second = struct.unpack_from(">QQ", body)
    if text[0] == 3:
        return [(first, None, None, None, second)]
    guard, least = struct.unpack_from(">QQ", body, 16) if text[0] == 2 else (None, None)
    return [(first, second, guard, least, None)]


def transactions_rows(batches, report, picked=None):
    rows = []
    for place, ((batch, text), (status, moved)) in enumerate(zip(places_of(batches), receipts_of(report))):
        if status == 1:
            if picked is None:
                rows.append(row(place, batch, 0, "malformed", *[None] * 7, 1, 0))
            continue
        seq, sender = struct.unpack_from(">QQ", text, 2 + 9 * text[1])
        for item, (to, amount, guard, least, keep) in enumerate(asked_of(text)):
            if picked is None or {sender, to, guard} & picked:
                paid = (moved if amount is None else amount) if status == 0 else 0
                rows.append(row(place, batch, item, KINDS[text[0]], sender, seq, to, amount, guard, least, keep, status, paid))
    return [PAYMENTS, *rows]


def postings_rows(genesis, batches, report, picked=None):
    accounts = {id: (balance, seq) for id, balance, seq in struct.iter_unpack(">QQQ", genesis[4:])}
    rows = []
    for place, ((_, text), (status, moved)) in enumerate(zip(places_of(batches), receipts_of(report))):
        if status == 1:
            continue
        sender, payments, guard = payments_of(text, moved)
        named = [sender, *sorted({to for to, _ in payments})]
        named += [guard] if guard is not None and guard not in named else []
        for id in named:
            role, amount, accounts[id] = step_of(accounts.get(id), id, text, status, moved)
            if picked is None or id in picked:
                balance, seq = accounts[id] or (None, None)
                rows.append(row(place, status, id, role, amount, balance, seq))
    return [POSTINGS, *rows]


def first_namings(committee, frames):
    """The certificate of the order that names each batch first, and the round of the anchor with which it was ordered."""
    admitted = admitted_of(committee, frames)
    top = max((number for number, _ in admitted), default=0)
    votes = {number: votes_of(committee, admitted, number) for number in range(1, top + 1, 2)}
    named = {}
    for kind, payload in frames:
        if kind == 3 and verdict(committee, payload)[0] is None:
            number, author, batches = verdict(committee, payload)[1]
            named[number, author] = batches
    firsts, past = {}, set()
    for anchor in sorted(committed_of(committee, admitted, votes)):
        history = history_of(admitted, (anchor, leader_of(committee, anchor)))
        for place in sorted(history - past):
            for digest in named[place]:
                firsts.setdefault(digest, (place, anchor))
        past |= history
    return firsts


def batches_rows(version, frames):
    committee = committee_of(version, frames[0][1])
    held = {sha256(payload).digest(): payload for kind, payload in frames if kind == 4}
    rows = []
    for digest, ((number, author), anchor) in first_namings(committee, frames).items():
        if digest not in held:
            break
        texts = texts_of(held[digest])
        rows.append(row(len(rows), digest.hex(), number, author, anchor, "void" if texts is None else len(texts)))
    return [BATCHES, *rows]


def root_of(leaves):
    """The tree hash of RFC 6962."""
    if not leaves:
        return sha256().digest()
    if len(leaves) == 1:
        return sha256(b"\0" + leaves[0]).digest()
    half = 1
    while 2 * half < len(leaves):
        half *= 2
    return sha256(b"\1" + root_of(leaves[:half]) + root_of(leaves[half:])).digest()


def link_line(version, frames, report):
    found = {line.split()[0]: line.split()[1:] for line in report}
    genesis = frames[1][1][4:]
    opening = root_of([genesis[at : at + 24] for at in range(0, len(genesis), 24)])
    accounts = sum(line.startswith("account ") for line in report)
    return (f"link version {version} committee {sha256(frames[0][1]).hexdigest()} opening {opening.hex()} closing"
            f" {found['state'][0]} accounts {accounts} money {found['money'][0]} transactions {len(receipts_of(report))}"
            f" {'short' if 'missing' in found else 'whole'}")
