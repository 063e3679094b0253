"""Which crate is proved next and by how many processes, and how long all that is left takes."""
import copy
import re

# What each further process of one proof gains, in parts of what the first does.
GAIN = 0.1


def chains(crates, used, seconds):
    """For each crate, how many seconds the longest chain of proofs takes that begins with it."""
    found = {}
    for name in reversed(crates):
        above = [found[it] for it in found if name in used[it]]
        found[name] = seconds[name] + max(above, default=0)
    return found


class Schedule:
    """The crates that wait for their proofs, those at work with how many processes each, and those that are done."""

    def __init__(self, crates, used, kept, places):
        """Of the crates, lowest first, `used` has those below each; `kept` is the text of launcher/seconds.txt."""
        self.known = {name: int(seconds) for name, seconds in re.findall(r"^(\w+) (\d+)$", kept, re.M)}
        middle = sorted(self.known.values())[len(self.known) // 2] if self.known else 1
        self.seconds = {name: self.known.get(name, middle) for name in crates}
        self.chain = chains(crates, used, self.seconds)
        self.used, self.places = used, places
        self.waiting, self.working, self.done = list(crates), {}, set()

    def next(self):
        """The crate to be proved next and by how many processes, where one can be: that of the longest chain, by all
        that are free but one for each other that could begin. What all others wait for gets two at least, where there
        are four: the second gains little, and others could use it."""
        free = self.places - sum(self.working.values())
        ready = [it for it in self.waiting if self.done.issuperset(self.used[it])]
        if not ready or free < 1:
            return None
        name = max(ready, key=self.chain.get)
        is_longest = self.chain[name] == max(self.chain[it] for it in (*self.waiting, *self.working))
        return name, max(1 + (is_longest and self.places > 3), free - len(ready) + 1)

    def begin(self, name, jobs):
        self.waiting.remove(name)
        self.working[name] = jobs

    def end(self, name):
        del self.working[name]
        self.done.add(name)

    def expected(self, name):
        """How many seconds the proof of a crate takes by as many processes as are at work on it."""
        return self.seconds[name] / (1 + GAIN * (self.working[name] - 1))

    def rest(self, needed):
        """How many seconds it takes until all are done, where each crate at work needs so many more: the schedule is
        played to its end."""
        played, ends, now = copy.copy(self), dict(needed), 0
        played.waiting, played.working, played.done = list(self.waiting), dict(self.working), set(self.done)
        while True:
            while found := played.next():
                played.begin(*found)
                ends[found[0]] = now + played.expected(found[0])
            if not played.working:
                return now
            name = min(played.working, key=ends.get)
            now = ends[name]
            played.end(name)
