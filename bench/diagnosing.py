"""A plain reading of the commands that say what is wrong with a feed: the lines of `waiting`, `missing` and `evidence`, from
the frames of the feed by the definitions alone. `missing` also takes the `cert` lines of the report of `run`."""
from hashlib import sha256

from drawn import committee_of, id_of, verdict
from readings import admitted_of, parts_of


def certificates_of(committee, frames):
    """The good certificates, from id to round, author and parents; and the first rejected of each id, to frame and rule."""
    good, rejected = {}, {}
    for number, (kind, payload) in enumerate(frames):
        rule, found = verdict(committee, payload) if kind == 3 else (0, None)
        if rule == 0:
            continue
        head, parents, _ = parts_of(payload)
        if rule is None:
            good[id_of(head)] = (*found[:2], parents)
        else:
            rejected.setdefault(id_of(head), (number, rule))
    return good, rejected


def parent_lines(good, rejected, admitted, number, parents):
    for name in parents:
        if name not in good:
            yield f"parent {name.hex()} " + ("rejected {} {}".format(*rejected[name]) if name in rejected else "absent")
        elif good[name][:2] not in admitted:
            yield "parent {} waiting {} {}".format(name.hex(), *good[name])
        elif good[name][0] != number - 1:
            yield "parent {} round {} {}".format(name.hex(), *good[name])


def waiting_lines(version, frames):
    committee = committee_of(version, frames[0][1])
    good, rejected = certificates_of(committee, frames)
    admitted = admitted_of(committee, frames)
    lines = []
    for name, (number, author, parents) in sorted(good.items(), key=lambda each: each[1][:2]):
        if (number, author) in admitted:
            continue
        lines.append(f"waiting {number} {author} {name.hex()}")
        found = list(parent_lines(good, rejected, admitted, number, parents))
        weight = committee.weight({good[parent][1] for parent in parents if parent in good})
        lines += found or [f"parents weigh {weight} of {committee.quorum}"]
    return lines


def missing_lines(frames, places, held):
    """`places` are the rounds and authors of the order, `held` has the batches that the certificate of each names."""
    there = {sha256(payload).digest() for kind, payload in frames if kind == 4}
    first = {}
    for place in places:
        for digest in held[place]:
            first.setdefault(digest, place)
    return ["missing {} {} {}".format(digest.hex(), *place) for digest, place in first.items() if digest not in there]


def evidence_lines(version, frames):
    """No two headers with one id, nor payloads with one digest, are known, so all lines are of twins."""
    good, _ = certificates_of(committee_of(version, frames[0][1]), frames)
    names = {}
    for name, (number, author, _) in good.items():
        names.setdefault((number, author), []).append(name)
    return [f"equivocation {number} {author} {min(them).hex()} {name.hex()}"
            for (number, author), them in sorted(names.items()) for name in sorted(them)[1:]]
