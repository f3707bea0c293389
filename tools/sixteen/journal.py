"""The journal as its lines tell it, and whether each entry may stand behind those before it."""
import re
from typing import NamedTuple, Optional


class Illegal(Exception):
    """An entry, or a reply, that may not stand where it does."""


class Entry(NamedTuple):
    """An entry: its word, its session and statement if it has them, its epoch, its deps, and what else it says."""

    word: str
    session: Optional[int] = None
    statement: Optional[int] = None
    epoch: Optional[int] = None
    deps: Optional[list] = None
    rest: str = ""


FORM = re.compile(r"(?P<word>[a-z]+)(?: (?P<session>\d+)\.(?P<statement>\d+))?(?: (?:epoch )?(?P<epoch>\d+))?(?: (?P<rest>.*))?$")


def numbers(text):
    return [int(it) for it in text.strip("[]").split(",") if it]


def entry(line):
    """The entry of a line."""
    found = FORM.match(line)
    if not found:
        raise Illegal(f"no entry: {line}")
    session, statement, epoch = (int(found[it]) if found[it] else None for it in ("session", "statement", "epoch"))
    rest = found["rest"] or ""
    deps = numbers(rest[len("deps ") :]) if rest.startswith("deps ") else None
    return Entry(found["word"], session, statement, epoch, deps, rest)


class Placed(NamedTuple):
    """An entry, and what the journal had come to there: the counters as they are told, the pending epochs, LSE."""

    entry: Entry
    told: str
    pending: list
    safe: int


class Counters:
    """What a journal has come to, entry by entry."""

    def __init__(self):
        self.next, self.safe, self.round, self.lost = 1, 0, None, False
        self.pending, self.open = [], []
        self.since = {}

    def committed(self):
        """LCE: the epoch before the least pending one and the next."""
        return min(self.pending + [self.next]) - 1

    def target(self):
        """Up to where a round goes: the bound of the oldest open snapshot, or LCE."""
        return self.open[0][2] if self.open else self.committed()

    def held(self, session):
        """The snapshot of a session: whether it is a writer's, and its epoch."""
        for holder, writes, _, epoch in self.open:
            if holder == session:
                return writes, epoch
        return None

    def text(self):
        return f"ec {self.next} lce {self.committed()} lse {self.safe}"

    def may(self, it):
        """Whether the entry may stand next."""
        held = self.held(it.session) if it.session else None
        if it.word == "begin":
            return it.epoch == self.next and it.deps == self.pending and held is None
        if it.word == "read":
            return it.epoch == self.committed() and held is None
        if it.word == "readend":
            return held is not None and not held[0]
        if it.word in ("committed", "aborted"):
            return held == (True, it.epoch)
        if it.word == "round":
            return self.round is None and not self.lost and it.epoch == self.target() > self.safe
        if it.word == "idle":
            return self.round is None and not self.lost and it.epoch == self.target() == self.safe
        if it.word == "safe":
            return self.round == it.epoch
        if it.word == "flushed":
            return self.since.get(it.session, self.since[None]).flushed
        if it.word == "purged":
            return it.epoch in self.since.get(it.session, self.since[None]).safe
        return it.word in ("refused", "cleared", "show")

    def take(self, it):
        """Goes on by an entry."""
        bound = self.committed()
        if it.word in ("begin", "read"):
            self.open.append((it.session, it.word == "begin", bound, it.epoch))
        if it.word in ("committed", "aborted", "readend"):
            self.open = [held for held in self.open if held[0] != it.session]
        if it.word == "begin":
            self.next += 1
            self.pending.append(it.epoch)
        if it.word in ("committed", "aborted"):
            self.pending.remove(it.epoch)
        if it.word in ("round", "safe", "idle"):
            self.round = it.epoch if it.word == "round" else None
        if it.word == "safe":
            self.safe = it.epoch
        for since in self.since.values():
            since.see(it)
        if it.session:
            self.since[it.session] = Since(self.safe)


class Since:
    """What there was since the last entry of a session: which epochs were the safe one, and a whole round or an idle one."""

    def __init__(self, safe):
        self.safe, self.begun, self.flushed = {safe}, False, False

    def see(self, it):
        if it.word == "safe":
            self.safe.add(it.epoch)
        if it.word == "round":
            self.begun = True
        if it.word == "idle" or it.word == "safe" and self.begun:
            self.flushed = True


def judged(lines):
    """The entries of a journal's lines, each at its place, and what all have come to. Illegal where one may not stand."""
    counters, entries = Counters(), []
    counters.since[None] = Since(0)
    for line in lines:
        it = entry(line)
        if not counters.may(it):
            raise Illegal(f"{line}: behind {len(entries)} entries, {counters.text()}, pending {counters.pending}")
        counters.take(it)
        entries.append(Placed(it, counters.text(), list(counters.pending), counters.safe))
    return entries, counters
