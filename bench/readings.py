"""A plain reading of the commands that show what is in a feed: the lines of `frames`, `summary`, `anchors` and `statement`,
from the bytes of the feed by the definitions alone, and of `check-report`. `summary`, `statement` and `check-report` also
take lines of the report of `run`."""
import hmac
import os
import struct
from hashlib import sha256

from drawn import committee_of, frame_fault, id_of, verdict


# ---- frames


def whole_frames(data):
    """The frames before any fault, each as its offset, kind and payload."""
    if data[:4] not in (b"BKF1", b"BKF2"):
        return []
    at, frames = 4, []
    while at < len(data):
        code, end = frame_fault(data, at, len(frames))
        if code:
            break
        frames.append((at, data[at], data[at + 5 : end]))
        at = end
    return frames


def texts_of(payload):
    """The transactions of a batch, or None where it is void."""
    if len(payload) < 2:
        return None
    at, texts = 2, []
    for _ in range(int.from_bytes(payload[:2], "big")):
        end = at + 2 + int.from_bytes(payload[at : at + 2], "big")
        if at + 2 > len(payload) or end > len(payload):
            return None
        texts.append(payload[at + 2 : end])
        at = end
    return texts if at == len(payload) else None


def parts_of(payload):
    """The header of a certificate, its parents and how many signed it; its form has to be good."""
    count = struct.unpack_from(">H", payload, 5)[0]
    at = 7 + 32 * count
    end = at + 1 + 32 * payload[at]
    parents = [payload[k : k + 32] for k in range(at + 1, end, 32)]
    return payload[:end], parents, bin(int.from_bytes(payload[end : end + 16], "little")).count("1")


def certificate_words(committee, payload):
    rule, found = verdict(committee, payload)
    if rule == 0:
        return "cert broken 0"
    number, author, batches = found
    head, parents, signers = parts_of(payload)
    ending = "good" if rule is None else f"broken {rule}"
    return (f"cert {id_of(head).hex()} round {number} author {author} batches {len(batches)} parents {len(parents)}"
            f" signers {signers} {ending}")


def frame_words(committee, kind, payload):
    digest = sha256(payload).hexdigest()
    if kind == 1:
        return f"committee {digest} version {committee.version} members {committee.n}"
    if kind == 2:
        rows = list(struct.iter_unpack(">QQQ", payload[4:]))
        return f"genesis {digest} accounts {len(rows)} money {sum(row[1] for row in rows)}"
    if kind == 3:
        return certificate_words(committee, payload)
    texts = texts_of(payload)
    return f"batch {digest} void" if texts is None else f"batch {digest} transactions {len(texts)}"


def frames_lines(data):
    frames = whole_frames(data)
    committee = committee_of(data[3] - 48, frames[0][2]) if frames else None
    return [f"frame {k} at {at} {frame_words(committee, kind, payload)}" for k, (at, kind, payload) in enumerate(frames)]


def wrong_tag(data):
    """The first frame that is rejected for its tags, with its first signer whose tag is wrong; None where there is none."""
    frames = whole_frames(data)
    committee = committee_of(data[3] - 48, frames[0][2]) if frames else None
    for k, (_, kind, payload) in enumerate(frames):
        if kind == 3 and verdict(committee, payload)[0] == 7:
            head, _, _ = parts_of(payload)
            mask = int.from_bytes(payload[len(head) : len(head) + 16], "little")
            signers = [member for member in range(128) if mask >> member & 1]
            for place, member in enumerate(signers):
                tag = payload[len(head) + 16 + 32 * place :][:32]
                if tag != hmac.digest(committee.keys[member], id_of(head), "sha256"):
                    return k, member
    return None


# ---- anchors


def admitted_of(committee, frames):
    """The admitted certificates: from round and author to the authors of their parents. The feed is not stopped."""
    good = {}
    for kind, payload in frames:
        if kind == 3 and verdict(committee, payload)[0] is None:
            head, parents, _ = parts_of(payload)
            author, number = struct.unpack_from(">BI", head)
            good[number, author] = (id_of(head), parents)
    admitted, ids = {}, {}
    for (number, author), (name, parents) in sorted(good.items()):
        authors = [ids.get((number - 1, parent)) for parent in parents]
        if number > 1 and (None in authors or committee.weight(authors) < committee.quorum):
            continue
        ids[number, name] = author
        admitted[number, author] = set(authors)
    return admitted


def leader_of(committee, number):
    return (number - 1) // 2 % committee.n


def votes_of(committee, admitted, number):
    """The weight of the votes for the anchor of a round, None where there is no anchor."""
    leader = leader_of(committee, number)
    if (number, leader) not in admitted:
        return None
    voters = [author for (k, author), parents in admitted.items() if k == number + 1 and leader in parents]
    return committee.weight(voters)


def history_of(admitted, start):
    seen, todo = {start}, [start]
    while todo:
        number, author = todo.pop()
        for parent in admitted[number, author]:
            if (number - 1, parent) not in seen:
                seen.add((number - 1, parent))
                todo.append((number - 1, parent))
    return seen


def committed_of(committee, admitted, votes):
    """The rounds of the committed anchors."""
    voted = [number for number, weight in votes.items() if weight is not None and weight > committee.faulty]
    committed, at = [], max(voted, default=None)
    while at is not None:
        committed.append(at)
        past = history_of(admitted, (at, leader_of(committee, at)))
        at = max((k for k in range(1, at, 2) if (k, leader_of(committee, k)) in past), default=None)
    return committed


def anchors_lines(version, frames):
    committee = committee_of(version, frames[0][1])
    admitted = admitted_of(committee, frames)
    top = max((number for number, _ in admitted), default=0)
    votes = {number: votes_of(committee, admitted, number) for number in range(1, top + 1, 2)}
    committed = committed_of(committee, admitted, votes)
    lines = []
    for number, weight in votes.items():
        if number in committed:
            result = "voted" if weight > committee.faulty else "linked"
        else:
            result = "skipped" if number < max(committed, default=0) else "open"
        lines.append(f"round {number} leader {leader_of(committee, number)} votes {'-' if weight is None else weight}"
                     f" need {committee.faulty + 1} {result}")
    return lines


# ---- a summary


def ordered_batches(committee, frames, order, held):
    """The digests of the batches that the certificates of these places name, before the first that is not held."""
    named = {}
    for kind, payload in frames:
        if kind == 3 and verdict(committee, payload)[0] is None:
            number, author, batches = verdict(committee, payload)[1]
            named[number, author] = batches
    ordered = []
    for place in order:
        for name in named[place]:
            if name in ordered:
                continue
            if name not in held:
                return ordered
            ordered.append(name)
    return ordered


def summary_lines(version, frames, report):
    """The summary of a feed that is not stopped, with these lines of its report."""
    committee = committee_of(version, frames[0][1])
    found = {name: [line.split()[1:] for line in report if line.split()[0] == name]
             for name in ("members", "waiting", "cert", "missing", "tx", "account", "money", "state")}
    certs = [payload for kind, payload in frames if kind == 3]
    good = [id_of(parts_of(payload)[0]) for payload in certs if verdict(committee, payload)[0] is None]
    batches = {sha256(payload).digest(): payload for kind, payload in frames if kind == 4}
    count = sum(kind == 4 for kind, _ in frames)
    order = [(int(number), int(author)) for number, author in found["cert"]]
    ordered = ordered_batches(committee, frames, order, batches)
    void = sum(texts_of(batches[name]) is None for name in ordered)
    results = [line.split()[-1] for line in anchors_lines(version, frames)]
    statuses = [int(status) for _, status, _ in found["tx"]]
    names = ("ok", "malformed", "undeclared", "unknown", "stale", "guard", "funds")
    return [
        f"version {version}",
        f"committee {sha256(frames[0][1]).hexdigest()}",
        f"genesis {sha256(frames[1][1]).hexdigest()}",
        f"members {' '.join(found['members'][0])}",
        f"frames {len(frames)}",
        f"certificates {len(certs)} rejected {len(certs) - len(good)} repeated {len(good) - len(set(good))}"
        f" waiting {len(found['waiting'])} ordered {len(order)}",
        f"anchors {results.count('voted') + results.count('linked')} skipped {results.count('skipped')}"
        f" open {results.count('open')}",
        f"batches {count} repeated {count - len(batches)} ordered {len(ordered)} void {void}"
        f" unordered {len(set(batches) - set(ordered))}",
        *(f"missing {name}" for name, in found["missing"]),
        f"transactions {len(statuses)} " + " ".join(f"{name} {statuses.count(k)}" for k, name in enumerate(names)),
        f"accounts {len(found['account'])} money {found['money'][0][0]}",
        f"state {found['state'][0][0]}",
    ]


# ---- a statement


def payments_of(text, moved):
    """The sender, the payments and the guard of a well-formed transaction that moved this much."""
    at = 2 + 9 * text[1]
    sender = struct.unpack_from(">Q", text, at + 8)[0]
    body = text[at + 16 :]
    if text[0] == 4:
        return sender, list(struct.iter_unpack(">QQ", body[1:])), None
    to, amount = struct.unpack_from(">QQ", body)
    guard = struct.unpack_from(">Q", body, 16)[0] if text[0] == 2 else None
    return sender, [(to, moved if text[0] == 3 else amount)], guard


def shown(account):
    return "absent" if account is None else f"{account[0]} {account[1]}"


def step_of(account, name, text, status, moved):
    """What a transaction does to an account: its role, the amount and the account after it; None if it has no part."""
    sender, payments, guard = payments_of(text, moved)
    got = sum(amount for to, amount in payments if to == name)
    receives = name in [to for to, _ in payments]
    after = account
    if name == sender and status in (0, 5, 6):
        after = (after[0] - moved, after[1] + 1)
    if receives and status == 0:
        balance, seq = after or (0, 0)
        after = (balance + got, seq)
    if name == sender:
        return "out", moved, after
    if receives:
        return "in", got if status == 0 else 0, after
    return ("guard", 0, after) if name == guard else None


def statement_lines(name, genesis, texts, receipts):
    """The lines of a statement, none where the account is nowhere. `receipts` are pairs of a status and what moved."""
    rows = {row[0]: row[1:] for row in struct.iter_unpack(">QQQ", genesis[4:])}
    account = rows.get(name)
    lines = [f"opening {name} {shown(account)}"]
    for place, (text, (status, moved)) in enumerate(zip(texts, receipts)):
        step = None if status == 1 else step_of(account, name, text, status, moved)
        if step:
            role, amount, account = step
            lines.append(f"tx {place} {status} {role} {amount} {shown(account)}")
    if len(lines) == 1 and account is None:
        return []
    return [*lines, f"closing {name} {shown(account)}"]


# ---- check-report


def line_there(text, at):
    """The line of a byte of a text, None where the text ends before that byte."""
    if at == len(text):
        return None
    end = text.find(b"\n", at)
    return text[text.rfind(b"\n", 0, at) + 1 : len(text) if end < 0 else end]


def claim_lines(right, claimed):
    """The lines of the verdict on what is claimed to be this report."""
    if right == claimed:
        return ["report good"]
    at = len(os.path.commonprefix([right, claimed]))
    line, other = line_there(right, at), line_there(claimed, at)
    shown_there = "end" if other is None else "".join(chr(b) if 32 <= b <= 126 else "?" for b in other[:200])
    return [f"report differs at line {right.count(bytes([10]), 0, at) + 1}",
            "feed " + ("end" if line is None else line.decode()), f"claimed {shown_there}"]
