"""Judges the journal of a run by the rules for its entries, with nothing but its lines and the names of the cubes."""
import re

FORMS = [
    ("begin", r"begin (\d+)\.(\d+) epoch (\d+) deps \[([\d,]*)\]"),
    ("read", r"read (\d+)\.(\d+) epoch (\d+)"),
    ("readend", r"readend (\d+)\.(\d+)"),
    ("committed", r"committed (\d+)\.(\d+) epoch (\d+)"),
    ("aborted", r"aborted (\d+)\.(\d+) epoch (\d+) (?:Asked|EndOfScript|TooManyRejected|ReadFault|NoMemory)"),
    ("refused", r"refused (\d+)\.(\d+) code (\d+)"),
    ("cleared", r"cleared (\d+)\.(\d+)"),
    ("show", r"show (\d+)\.(\d+)"),
    ("flushed", r"flushed (\d+)\.(\d+)"),
    ("purged", r"purged (\d+)\.(\d+) epoch (\d+)"),
    ("cube", r"cube (\d+)\.(\d+) epoch (\d+)"),
    ("round", r"round (\d+)"),
    ("idle", r"idle (\d+)"),
    ("safe", r"safe (\d+)"),
    ("lost", r"lost (\d+) (disk|memory)"),
]
MOST_CUBES = 16


class Illegal(Exception):
    """An entry that may not stand where it stands."""


def need(holds, why):
    if not holds:
        raise Illegal(why)


class Journal:
    """What the entries so far have come to."""

    def __init__(self, cubes, named):
        """`cubes` are the names of the cubes at the beginning; `named` has the cube that a statement speaks of."""
        self.cubes, self.named = list(cubes), named
        self.next_epoch, self.pending, self.safe = 1, [], 0
        self.snapshots = []  # in the order of opening: (session, bound, epoch, whether it writes)
        self.round, self.disk_lost = None, False
        self.flushed = {}  # of a session: whether a round ended as safe, or was idle, since its previous entry
        self.round_begun = set()  # the sessions without an entry since the open round began
        self.safes = {}  # of a session: the safe epochs since its previous entry

    def committed(self):
        return min(self.pending + [self.next_epoch]) - 1

    def target(self):
        return self.snapshots[0][1] if self.snapshots else self.committed()

    def held(self, session):
        return next((it for it in self.snapshots if it[0] == session), None)

    def ends(self, session, epoch, writes):
        """The snapshot that a session holds ends."""
        held = self.held(session)
        need(held and held[3] == writes and epoch in (None, held[2]), "ends what its session does not hold")
        self.snapshots.remove(held)

    def takes_epoch(self, session, epoch):
        need(epoch == self.next_epoch, "not the next epoch")
        need(not self.held(session), "its session holds a snapshot")
        self.next_epoch += 1

    def append(self, kind, numbers):
        """One more entry."""
        if kind in ("round", "idle", "safe", "lost"):
            self.append_round(kind, int(numbers[0]), numbers[1:])
            return
        session, statement = int(numbers[0]), int(numbers[1])
        epoch = int(numbers[2]) if len(numbers) > 2 else None
        if kind == "begin":
            bound, deps = self.committed(), [int(it) for it in numbers[3].split(",") if it]
            need(deps == self.pending, "not the pending epochs")
            self.takes_epoch(session, epoch)
            self.pending.append(epoch)
            self.snapshots.append((session, bound, epoch, True))
        elif kind == "read":
            need(epoch == self.committed(), "not the latest committed epoch")
            need(not self.held(session), "its session holds a snapshot")
            self.snapshots.append((session, epoch, epoch, False))
        elif kind == "readend":
            self.ends(session, None, False)
        elif kind in ("committed", "aborted"):
            self.ends(session, epoch, True)
            self.pending.remove(epoch)
        elif kind == "refused":
            self.append_refused(epoch, self.named.get(statement))
        elif kind == "flushed":
            need(self.flushed.get(session), "no round since its session's previous entry")
        elif kind == "purged":
            need(epoch in self.safes.get(session, {0}) | {self.safe}, "was not the safe epoch")
        elif kind == "cube":
            self.takes_epoch(session, epoch)
            name = self.named.get(statement)
            need(len(self.cubes) < MOST_CUBES and name not in self.cubes, "no place for the cube, or not a new name")
            self.cubes.append(name)
        self.flushed[session], self.safes[session] = False, {self.safe}
        self.round_begun.discard(session)

    def append_refused(self, code, name):
        need(code != 17 or self.disk_lost, "no round was lost to the disk")
        need(code != 2 or name not in self.cubes, "a cube has the name")
        need(code != 19 or name in self.cubes, "no cube has the name")
        need(code != 21 or (len(self.cubes) == MOST_CUBES and name not in self.cubes), "there is a place for the cube")

    def append_round(self, kind, epoch, cause):
        """An entry of a round."""
        if kind in ("round", "idle"):
            need(self.round is None and not self.disk_lost, "a round is open, or one was lost to the disk")
            need(epoch == self.target(), "not the target")
            need((epoch > self.safe) == (kind == "round"), "a round without anything to keep, or none though there is")
        else:
            need(epoch == self.round, "not the epoch of the round that is open")
        if kind == "round":
            self.round = epoch
            self.round_begun = {1} | set(self.flushed)
        elif kind == "idle":
            self.flushed = dict.fromkeys({1} | set(self.flushed), True)
        else:
            self.round = None
            self.disk_lost |= cause == ("disk",)
        if kind == "safe":
            self.safe = epoch
            for session in {1} | set(self.safes):
                self.safes[session] = self.safes.get(session, {0}) | {epoch}
            for session in self.round_begun:
                self.flushed[session] = True


def judge(text, cubes, named):
    """Judges the journal of a whole text, and the counters of its last line."""
    lines = text.split("\n")
    need(lines.pop() == "", "the last line does not end")
    begin = next((i for i, line in enumerate(lines) if re.fullmatch(r"journal \d+", line)), None)
    need(begin is not None, "no journal")
    count, journal = int(lines[begin].split()[1]), Journal(cubes, named)
    need(len(lines) == begin + 1 + count + 1, "not as many entries as are told")
    for line in lines[begin + 1 : -1]:
        kind, numbers = next(((k, m.groups()) for k, f in FORMS if (m := re.fullmatch(f, line))), (None, None))
        need(kind, f"no entry: {line}")
        try:
            journal.append(kind, numbers)
        except Illegal as why:
            raise Illegal(f"{line}: {why}") from None
    need(not journal.snapshots and journal.round is None, "a snapshot or a round is left open")
    end = f"end ec {journal.next_epoch} lce {journal.committed()} lse {journal.safe}"
    need(lines[-1] == end, f"{lines[-1]}, and the journal gives {end}")
