"""A plain reading of `dag`: the picture of some rounds, from the bytes of a feed that is not stopped. The style sheet and the
words on what the signs mean are those of the definitions; all else is written here once more."""
import os
import re
import struct

from common import ROOT
from drawn import committee_of, id_of, verdict
from readings import admitted_of, anchors_lines, history_of, leader_of, parts_of


def fixed(name):
    """A text of crates/bk_picture/specs/Fixed.antt."""
    with open(os.path.join(ROOT, "crates/bk_picture/specs/Fixed.antt"), encoding="utf-8") as source:
        body = source.read().split(f"\n{name} =\n")[1].split("\n\n")[0]
    return "".join(re.findall(r'codes "([^"]*)"', body)).replace("\\n", "\n")


# The most members of which all lines are drawn, where none are asked for.
MOST_LINKED = 16
# The classes of votes where no other lines are drawn, and what the name says of the lines that are.
THIN = "v t"
LEFT_OUT = {"all": "", "votes": ", votes alone", "none": ", no lines"}


def key(links):
    """The signs of the key: a column of circles, one of rings and one of lines, each sign 24 below the one before."""
    text = ""
    columns = ((0, 6, 18, ("ordered", "admitted", "waiting")), (120, 10, 138, ("voted", "linked", "skipped", "open")))
    for left, radius, right, words in columns:
        for row, word in enumerate(words):
            at = (f" cx='{left}'" if left else "") + (f" cy='{24 * row}'" if row else "")
            text += f"<circle class='{word}'{at} r='{radius}'/><text x='{right}' y='{24 * row + 4}'>{word}</text>\n"
    drawn = {"all": (("v", "vote"), ("l", "parent")), "votes": ((THIN, "vote"),), "none": ()}[links]
    for row, (kind, word) in enumerate(drawn):
        text += f"<path class='{kind}' d='M230 {24 * row}h24'/><text x='262' y='{24 * row + 4}'>{word}</text>\n"
    return text


def height(member):
    return 28 * member + 82


def classes_of(committee, good, admitted, rows):
    """What became of the certificate of each round and author that has one."""
    found = {place: "admitted" if place in admitted else "waiting" for place in good}
    for number, row in rows.items():
        if row.split()[-1] in ("voted", "linked"):
            found.update(dict.fromkeys(history_of(admitted, (number, leader_of(committee, number))), "ordered"))
    return found


def path(kind, x, segments):
    lines = "".join(f"M0 {height(member)}L-40 {height(parent)}" for member, parent in segments)
    return f"<path class='{kind}' transform='translate({x})' d='{lines}'/>\n"


def named_of(committee, certificates):
    """The parents that each certificate which breaks no rule names, as authors of the round before, as far as the feed has
    them, admitted or not."""
    parts = {struct.unpack_from(">BI", it)[::-1]: parts_of(it) for it in certificates
             if verdict(committee, it)[0] is None}
    authors = {(number, id_of(header)): author for (number, author), (header, _, _) in parts.items()}
    return {(number, author): {authors[number - 1, it] for it in parents if (number - 1, it) in authors}
            for (number, author), (_, parents, _) in parts.items()}


def links(committee, named, admitted, shown, first, number, x):
    """The lines from the certificates of a round to their parents, and those of them that are votes, as far as they are
    shown. A certificate that waits has no vote."""
    drawn = [(member, parent) for member in range(committee.n) if number > first
             for parent in sorted(named.get((number, member), ()))]
    votes = [(member, parent) for member, parent in drawn
             if (number, member) in admitted and number % 2 == 0 and parent == leader_of(committee, number - 1)]
    if shown == "all":
        return path("l", x, drawn) + path("v", x, votes)
    return path(THIN, x, votes) if shown == "votes" else ""


def column(committee, good, classes, row, number, x):
    """The number, the ring and the circles of a round."""
    text = f"<g transform='translate({x})'>\n<text y='56'>{number}</text>\n"
    note, leader = "", None
    if row:
        _, _, _, leader, _, votes, _, need, state = row.split()
        leader, note = int(leader), f", anchor {state}, votes {votes} need {need}"
        text += f"<circle class='{state}' cy='{height(leader)}' r='11'><title>{row}</title></circle>\n"
    for member in range(committee.n):
        kind = classes.get((number, member))
        if kind:
            title = f"round {number} member {member} {kind}{note if member == leader else ''}"
            title += f", id {good[number, member].hex()}"
            text += f"<circle class='{kind}' cy='{height(member)}' r='6'><title>{title}</title></circle>\n"
    return text + "</g>\n"


def name_of(first, drawn, last, members, shown):
    """Which rounds are drawn of how many, of how many members, and whether lines are left out."""
    rounds = f"rounds {drawn[0]} to {drawn[-1]}" if drawn else f"no rounds from {first} on"
    return f"{rounds} of {last}, {members} members{LEFT_OUT[shown]}"


def head(name, columns, members):
    """The size, the name and what the signs mean, the style, and the words round the picture."""
    wide, high = 40 * max(columns, 8) + 60, 28 * members + 222
    return (f"<svg xmlns='http://www.w3.org/2000/svg' version='1.1' role='img' viewBox='0 0 {wide} {high}'"
            f" width='{wide}' height='{high}'>\n<title>{name}</title>\n" + fixed("desc_text") + fixed("style_text")
            + f"<text class='h' x='16' y='20'>{name}</text>\n<text class='a' x='60' y='40'>round</text>\n"
            f"<text class='a' transform='translate(12 {height(0)}) rotate(-90)'>member</text>\n")


def dag_text(version, frames, first, count, asked=None):
    """The picture of the rounds that a feed has of `count` rounds from the first on, with the lines that are asked for;
    each frame is its kind and its payload. The last round of a feed is the greatest of a certificate that breaks no
    rule."""
    committee = committee_of(version, frames[0][1])
    shown = asked or ("all" if committee.n <= MOST_LINKED else "votes")
    certificates = [payload for kind, payload in frames if kind == 3]
    good = {struct.unpack_from(">BI", it)[::-1]: id_of(parts_of(it)[0]) for it in certificates
            if verdict(committee, it)[0] is None}
    rejected = sum(verdict(committee, it)[0] is not None for it in certificates)
    named = named_of(committee, certificates)
    admitted = admitted_of(committee, frames)
    rows = {int(line.split()[1]): line for line in anchors_lines(version, frames)}
    classes = classes_of(committee, good, admitted, rows)
    last = max((number for number, _ in classes), default=0)
    drawn = [number for number in range(first, first + count) if number <= last]
    places = [(number, 40 * (number - first) + 60) for number in drawn]
    labels = (f"<text x='24' y='{height(member) + 4}'>{member}</text>\n" for member in range(committee.n))
    return (head(name_of(first, drawn, last, committee.n, shown), len(drawn), committee.n)
            + "".join(links(committee, named, admitted, shown, first, *place) for place in places)
            + "".join(column(committee, good, classes, rows.get(number), number, x) for number, x in places)
            + "".join(labels) + f"<g class='k' transform='translate(60 {height(committee.n) + 20})'>\n"
            + key(shown) + f"<text y='100'>rejected frames, not drawn: {rejected} (see bkreplay frames)</text>\n"
            + "</g>\n</svg>\n")
