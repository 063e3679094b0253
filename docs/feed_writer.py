#!/usr/bin/env python3
"""Writes feeds for bkreplay. A converter can import this file or copy it; it needs Python 3.7 or later and nothing else.

usage: docs/feed_writer.py FILE                  writes the feed of `one_commit`, in which one payment is executed
       docs/feed_writer.py FILE two_commits      writes that of `two_commits`: two batches of two rounds are executed
"""
import hmac
import sys
from hashlib import sha256
from struct import pack


def need(test, what):
    """What no feed can hold, or what would not count in one, is refused here."""
    if not test:
        raise ValueError(what)


def number(value, bits, what):
    """A number as so many bits, big-endian. A number of a data base, as a Decimal, is one too."""
    refusal = f"{what} is {value}: it has to be a number from 0 to 2^{bits} - 1"
    try:
        whole = int(value)
    except (TypeError, ValueError, ArithmeticError):
        raise ValueError(refusal) from None
    need(whole == value and 0 <= whole < 1 << bits, refusal)
    return whole.to_bytes(bits // 8, "big")


def of_32(value, what):
    """A key, a digest or an id, as bytes: of a data base it may come as a memoryview."""
    try:
        found = bytes(memoryview(value))
    except TypeError:
        raise ValueError(f"{what} is {value!r}: it has to be 32 bytes") from None
    need(len(found) == 32, f"{what} has {len(found)} bytes: it has to have 32")
    return found


def ascending(numbers):
    return all(low < high for low, high in zip(numbers, numbers[1:]))


class Feed:
    """A feed that is written to `out`, a binary file, frame by frame.

    `keys[i]` is the key of member i, 32 bytes. `accounts` are tuples (id, balance, sequence number) in any order. With
    `weights`, one for each member, the feed has version Two, and version One without.

    A certificate is refused that would be rejected, would wait for a parent that did not come before it, or would be a
    second one of its author and round. With `checked=False` all is written that the format can hold.
    """

    def __init__(self, out, keys, accounts, weights=None, checked=True):
        keys = [of_32(key, f"the key of member {member}") for member, key in enumerate(keys)]
        need(1 <= len(keys) <= 128, f"{len(keys)} members: 1 to 128 can be")
        need(weights is None or len(weights) == len(keys), "a weight for each key")
        for member, weight in enumerate(weights or []):
            need(int.from_bytes(number(weight, 32, f"the weight of member {member}"), "big") > 0,
                 f"the weight of member {member} is 0: it has to be above 0")
        for row in accounts:
            for value, name in zip(row, ("the id", "the balance", "the sequence number")):
                number(value, 64, f"{name} of the account {row!r}")
        accounts = sorted(accounts)
        need(len(accounts) <= 600_000, f"{len(accounts)} accounts: at most 600,000 can be")
        for (low, _, _), (high, _, _) in zip(accounts, accounts[1:]):
            need(low < high, f"the account {high} comes twice")
        total = sum(balance for _, balance, _ in accounts)
        need(total < 2**63, f"the balances together are {total}: they have to be below 2^63")
        for id, _, seq in accounts:
            need(seq < 2**63, f"the sequence number of account {id} is {seq}: it has to be below 2^63")
        self.out, self.keys, self.checked, self.size = out, keys, checked, 4
        self.weights = [int(weight) for weight in weights or [1] * len(keys)]
        # At most so much weight may be faulty; certificates take the rest of all weights.
        self.faulty = (sum(self.weights) - 1) // 3
        self.quorum = sum(self.weights) - self.faulty
        # The certificate of each round and author, and where each id is.
        self.made, self.places = {}, {}
        out.write(b"BKF2" if weights else b"BKF1")
        named = b"".join(number(weight, 32, "a weight") for weight in weights or [])
        self._frame(1, bytes([len(keys)]) + b"".join(keys) + named)
        words = ("an account", "a balance", "a sequence number")
        rows = b"".join(number(value, 64, what) for account in accounts for value, what in zip(account, words))
        self._frame(2, number(len(accounts), 32, "how many accounts") + rows)

    def _frame(self, kind, payload):
        self.size += 5 + len(payload)
        need(len(payload) <= 16_777_216, f"a payload of {len(payload)} bytes: at most 16,777,216 can be")
        need(self.size <= 4_294_967_295, "the feed has more than 4,294,967,295 bytes")
        self.out.write(pack(">BI", kind, len(payload)) + payload)

    def batch(self, transactions):
        """Writes a batch of these transactions, and returns its digest."""
        payload = number(len(transactions), 16, "how many transactions")
        payload += b"".join(number(len(tx), 16, "the length of a transaction") + tx for tx in transactions)
        self._frame(4, payload)
        return sha256(payload).digest()

    def weight_of(self, members):
        """What these members weigh together, each counted once."""
        return sum(self.weights[member] for member in set(members))

    def _check(self, author, round, parents, signers):
        """Whether a certificate of these counts."""
        of = f"the certificate of round {round} by member {author}"
        need(1 <= round <= 1_000_000, f"{of}: a round is from 1 to 1,000,000")
        weight = self.weight_of(signers)
        need(weight >= self.quorum, f"{of}: its signers weigh {weight}, and a quorum {self.quorum}")
        need(round > 1 or not parents, f"{of}: a certificate of round 1 has no parents")
        for id in parents:
            known = self.places.get(id, (0, 0))[0] == round - 1
            need(known, f"{of}: its parent {id.hex()} is no earlier certificate of round {round - 1}")
        weight = self.weight_of(self.places[id][1] for id in parents)
        need(round == 1 or weight >= self.quorum, f"{of}: its parents weigh {weight}, and a quorum {self.quorum}")

    def certificate(self, author, round, batches, parents, signers):
        """Writes a certificate, and returns its id.

        `batches` are digests, in the order in which the batches are to be executed. `parents` are ids, in any order.
        `author` and `signers` are member numbers.
        """
        batches = [of_32(digest, "the digest of a batch") for digest in batches]
        parents, signers = sorted(of_32(id, "the id of a parent") for id in parents), sorted(set(signers))
        for member in (author, *signers):
            need(0 <= member < len(self.keys), f"there is no member {member}: there are {len(self.keys)}, from 0 on")
        need(len(batches) <= 1_000, f"{len(batches)} batches: at most 1,000 can be")
        need(len(parents) <= 128 and ascending(parents), "there are more than 128 parents, or one comes twice")
        header = number(author, 8, "an author") + number(round, 32, "a round")
        if self.checked:
            self._check(author, int(round), parents, signers)
        header += pack(">H", len(batches)) + b"".join(batches)
        header += pack(">B", len(parents)) + b"".join(parents)
        id = sha256(b"\x10" + header).digest()
        first = self.made.setdefault((round, author), id)
        need(first == id or not self.checked, f"there are two certificates of round {round} by member {author}")
        self.places[id] = (round, author)
        mask = sum(1 << member for member in signers).to_bytes(16, "little")
        tags = b"".join(hmac.digest(self.keys[member], id, "sha256") for member in signers)
        self._frame(3, header + mask + tags)
        return id


def _transaction(kind, sender, receivers, guards, seq, body):
    """The sender and the receivers are declared for writing, a guard that is neither for reading."""
    for id in (sender, *receivers, *guards):
        number(id, 64, "an account")
    need(sender not in receivers, f"account {sender} is the sender and a receiver")
    writes = {sender, *receivers}
    declared = sorted([(id, 1) for id in writes] + [(id, 0) for id in guards - writes])
    text = pack(">BB", kind, len(declared))
    text += b"".join(pack(">B", mode) + number(id, 64, "an account") for id, mode in declared)
    return text + number(seq, 64, "a sequence number") + number(sender, 64, "an account") + body


def _numbers(**values):
    """These numbers, each of 64 bits, in this order."""
    return b"".join(number(value, 64, f"`{name}`") for name, value in values.items())


def pay(sender, to, amount, seq):
    return _transaction(1, sender, [to], set(), seq, _numbers(to=to, amount=amount))


def pay_if(sender, to, amount, seq, guard, least):
    return _transaction(2, sender, [to], {guard}, seq, _numbers(to=to, amount=amount, guard=guard, least=least))


def sweep(sender, to, keep, seq):
    return _transaction(3, sender, [to], set(), seq, _numbers(to=to, keep=keep))


def split(sender, payments, seq):
    """`payments` are tuples (receiver, amount) in any order."""
    for to, _ in payments:
        number(to, 64, "an account")
    payments = sorted(payments)
    receivers = [to for to, _ in payments]
    need(1 <= len(payments) <= 6 and ascending(receivers), "1 to 6 receivers, each once")
    body = pack(">B", len(payments)) + b"".join(_numbers(to=to, amount=amount) for to, amount in payments)
    return _transaction(4, sender, receivers, set(), seq, body)


def next_genesis(report):
    """The accounts at the end of a feed, for the opening of the next: tuples (id, balance, sequence number). `report` is
    the text of `run`, or its lines; its order has to stop at no missing batch, since a chain goes on only from a feed
    that is whole."""
    lines = report.splitlines() if isinstance(report, str) else list(report)
    words = [line.split() for line in lines]
    need(any(line[:1] == ["state"] for line in words), "the report has no line `state`: it is no whole report of `run`")
    missing = [line[1] for line in words if line[:1] == ["missing"]]
    need(not missing, f"the order stops at the missing batch {''.join(missing[:1])}")
    return [tuple(int(word) for word in line[1:]) for line in words if line[:1] == ["account"]]


def one_commit(out):
    """Account 1 pays 30 to account 2, and four members commit the payment."""
    keys = [bytes([member + 1]) * 32 for member in range(4)]
    feed = Feed(out, keys, [(1, 100, 0), (2, 50, 0)])
    digest = feed.batch([pay(1, 2, 30, 0)])
    # Member 0 leads round 1, and its certificate names the batch. Three of four members are a quorum.
    first = [feed.certificate(0, 1, [digest], [], [0, 1, 2])]
    for author in (1, 2, 3):
        first.append(feed.certificate(author, 1, [], [], [0, 1, 2]))
    # Two members of round 2 name it as a parent: more than the one member that may be faulty.
    for author in (0, 1):
        feed.certificate(author, 2, [], first[:3], [0, 1, 2])


def two_commits(out):
    """Account 1 pays 30 to account 2, which then pays 50 to account 1, in a batch that a later round names."""
    keys = [bytes([member + 1]) * 32 for member in range(4)]
    feed = Feed(out, keys, [(1, 100, 0), (2, 50, 0)])
    # Member 0 names the first batch in round 1, which it leads, and member 1 the second in round 2. The leader of round 3
    # is member 1, whose certificate has all of round 2 as parents, and all of round 4 name it.
    named = {(1, 0): [feed.batch([pay(1, 2, 30, 0)])], (2, 1): [feed.batch([pay(2, 1, 50, 0)])]}
    parents = []
    for number in (1, 2, 3, 4):
        parents = [
            feed.certificate(author, number, named.get((number, author), []), parents, [0, 1, 2]) for author in range(4)
        ]


if __name__ == "__main__":
    if len(sys.argv) not in (2, 3) or sys.argv[2:] not in ([], ["two_commits"]):
        sys.exit(__doc__)
    with open(sys.argv[1], "wb") as file:
        (two_commits if sys.argv[2:] else one_commit)(file)
