"""The model of a session, where some statements found no memory."""
import sys
from pathlib import Path

sys.path.insert(0, str(Path(__file__).resolve().parent.parent / "three_cubes"))

from grammar import Syntax, statement_of
from session import Session

CHANGES = ("INSERT", "LOAD", "DELETE")


class Unlike(Exception):
    """A statement that may not end so."""


class StarvedSession(Session):
    """A session some of whose statements are refused for want of memory.

    `refused` has for the number of each of them the entries that it left, and `rounds` those that the flusher left for it.
    `closing` has what the flusher left behind the script where that found no memory. Which of the ways to end was taken is
    read off them; that it is one of those which there are, and all else, the model decides.
    """

    def __init__(self, cubes, files, refused, rounds, closing=None):
        super().__init__(cubes, files)
        self.refused, self.rounds, self.closing = refused, rounds, closing

    def execute(self, text):
        if self.statement + 1 not in self.refused:
            super().execute(text)
            return
        self.statement += 1
        left, before = self.refused[self.statement], len(self.journal)
        try:
            form = statement_of(text)["form"]
        except Syntax:
            form = None
        self.end_without_memory(form, left)
        if [entry for entry in self.journal[before:] if entry.split()[1] == self.here()] != left:
            raise Unlike(f"{self.here()} left {left}")
        self.reply("refused 16 NoMemory")

    def end_without_memory(self, form, left):
        """The ways in which a statement may end that finds no memory: with its own transaction, with the one that is open,
        or with nothing but its refusal."""
        begun = left[0].split()[0] if left else None
        if form in CHANGES and self.state == "open" and begun == "aborted":
            self.abort("NoMemory")
            self.state = "aborted"
            return
        if form in CHANGES and self.state == "idle" and begun == "begin":
            self.begin()
            self.abort("NoMemory")
            return
        if form == "FLUSH":
            self.end_round(self.rounds.get(self.statement, []), ["lost", "safe"])
        if form == "SELECT" and self.state == "idle" and begun == "read":
            self.note(f"read {self.here()} epoch {self.committed()}")
            self.note(f"readend {self.here()}")
        self.note(f"refused {self.here()} code 16")

    def end_round(self, left, ends):
        """The ways in which a round may end that was asked for where memory ran out: not begun, or with one of these ends."""
        target = self.target()
        ways = [[], [f"idle {target}"]]
        if target != self.safe:
            ended = {"lost": f"lost {target} memory", "safe": f"safe {target}"}
            ways = [[]] + [[f"round {target}", ended[end]] for end in ends]
        if left not in ways:
            raise Unlike(f"the flusher left {left}")
        self.journal.extend(left)
        if left and left[-1] == f"safe {target}":
            self.safe = target

    def close(self):
        if self.closing is None:
            super().close()
        else:
            self.end_round(self.closing, ["lost"])
