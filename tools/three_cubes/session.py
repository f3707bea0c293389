"""A session over cubes: its epochs, its transactions, its journal, and the text of the whole run."""
from answers import Judge, field_of, first_of, table_of
from cubes import (
    Cube,
    Refusal,
    check_delete,
    check_insert,
    check_select,
    is_in_box,
    learn_conditions,
    learn_rows,
    loaded_rows,
)
from grammar import Syntax, pieces, statement_of

CAUSES = {10: "TooManyRejected"}  # of the refusals that end a transaction


class Session:
    """One session from its first statement to the closing line."""

    def __init__(self, cubes, files):
        self.cubes, self.files = cubes, files
        self.state = "idle"
        self.epoch = None  # of the transaction that is open or aborted
        self.bound = None  # the latest committed epoch when the open transaction began
        self.next_epoch, self.safe, self.pending = 1, 0, set()
        self.steps = []  # puts and drops in order: (epoch, cube, "put" or "drop", rows or conditions)
        self.journal, self.lines, self.numbers = [], [], {}
        self.statement = 0
        self.judge = Judge()

    # ---- epochs

    def committed(self):
        """The latest epoch up to which every transaction has ended, which is what a reader sees."""
        return min(self.pending | {self.next_epoch}) - 1

    def note(self, text):
        self.journal.append(text)

    def here(self):
        return f"1.{self.statement}"

    def begin(self):
        """Opens a transaction with the next epoch."""
        self.epoch, self.bound = self.next_epoch, self.committed()
        self.note(f"begin {self.here()} epoch {self.epoch} deps [{','.join(map(str, sorted(self.pending)))}]")
        self.pending.add(self.epoch)
        self.next_epoch += 1

    def commit(self):
        """Ends the transaction and keeps what it did."""
        self.pending.remove(self.epoch)
        self.note(f"committed {self.here()} epoch {self.epoch}")

    def abort(self, cause):
        """Ends the transaction and takes its steps out."""
        self.steps = [step for step in self.steps if step[0] != self.epoch]
        self.pending.remove(self.epoch)
        self.note(f"aborted {self.here()} epoch {self.epoch} {cause}")

    def target(self):
        """Where the open transaction began, or else the latest epoch that is committed."""
        return self.bound if self.pending else self.committed()

    def flush_round(self):
        """The safe epoch rises to the target."""
        target = self.target()
        if target == self.safe:
            self.note(f"idle {target}")
        else:
            self.note(f"round {target}")
            self.note(f"safe {target}")
            self.safe = target

    # ---- rows

    def cube(self, name):
        for cube in self.cubes:
            if cube.name == name:
                return cube
        raise Refusal(2, "UnknownCube " + name)

    def visible(self, cube, epoch):
        """The rows that are seen at an epoch: a drop hides those of lower epochs, and earlier ones of its own."""
        seen = [(place, step) for place, step in enumerate(self.steps) if step[0] <= epoch and step[1] is cube]
        found = []
        for place, (of, _, what, rows) in seen:
            if what != "put":
                continue
            hiding = [
                conditions
                for later, (by, _, does, conditions) in seen
                if does == "drop" and (of < by or (of == by and place < later))
            ]
            found += [row for row in rows if not any(is_in_box(cube, box, row) for box in hiding)]
        return found

    # ---- statements

    def reply(self, text, lines=()):
        self.lines.append(f"{self.here()} {text}")
        self.lines.extend(lines)

    def execute(self, text):
        """Executes one statement: its text is judged first, then the state of the session, then the rest."""
        self.statement += 1
        try:
            said = statement_of(text)
            self.check_state(said["form"])
            getattr(self, "run_" + said["form"].lower())(said)
        except Syntax as fault:
            self.refuse(Refusal(1, f"Syntax at {fault.at}"))
        except Refusal as refusal:
            self.refuse(refusal)

    def refuse(self, refusal):
        """A refusal that leaves its own entry."""
        self.note(f"refused {self.here()} code {refusal.number}")
        self.answer_refusal(refusal)

    def answer_refusal(self, refusal):
        self.numbers[refusal.number] = self.numbers.get(refusal.number, 0) + 1
        self.reply(f"refused {refusal.number} {refusal.text}")

    def check_state(self, form):
        """What the session being idle, open or aborted refuses."""
        if form in ("FLUSH", "PURGE", "SHOW"):
            return
        if self.state == "aborted" and form != "ROLLBACK":
            raise Refusal(14, "TransactionAborted")
        if self.state == "open" and form in ("BEGIN", "CREATE"):
            raise Refusal(12, "TransactionOpen")
        if self.state == "idle" and form in ("COMMIT", "ROLLBACK"):
            raise Refusal(13, "NoTransaction")

    def run_select(self, said):
        """A query outside a transaction has a snapshot of its own, and one inside sees what the transaction did."""
        cube = self.cube(said["cube"])
        check_select(cube, said)
        epoch = self.epoch if self.state == "open" else self.committed()
        if self.state == "idle":
            self.note(f"read {self.here()} epoch {epoch}")
            self.note(f"readend {self.here()}")
        rows = self.visible(cube, epoch)
        lines = first_of(said, table_of(cube, said, rows))
        self.judge.compare(cube, said, rows, lines)
        self.reply(f"rows {len(lines)} epoch {epoch}", [",".join(map(field_of, line)) for line in lines])

    def change(self, cube, what, rows, text, lines=()):
        """A step of the transaction that is open, or of one of its own, with its reply."""
        alone = self.state == "idle"
        if alone:
            self.begin()
        self.steps.append((self.epoch, cube, what, rows))
        if alone:
            self.commit()
        self.reply(f"{text} epoch {self.epoch}", lines)

    def run_insert(self, said):
        """All rows are judged before any text is given a number."""
        cube = self.cube(said["cube"])
        check_insert(cube, said["rows"])
        learn_rows(cube, said["rows"])
        self.change(cube, "put", said["rows"], f"stored {len(said['rows'])}")

    def run_load(self, said):
        """Too many bad records end the transaction, which is one of its own where none is open."""
        cube = self.cube(said["cube"])
        content = self.files.get(said["path"])
        if content is None:
            raise Refusal(8, "NoSuchFile")
        try:
            rows, rejected = loaded_rows(cube, content, said["reject"])
        except Refusal as refusal:
            alone = self.state == "idle"
            if alone:
                self.begin()
            self.abort(CAUSES[refusal.number])
            self.state = "idle" if alone else "aborted"
            self.answer_refusal(refusal)
            return
        self.change(cube, "put", rows, f"stored {len(rows)} rejected {len(rejected)}", rejected[:100])

    def run_delete(self, said):
        """A deletion gives its texts numbers, as a row with them may still come."""
        cube = self.cube(said["cube"])
        check_delete(cube, said)
        learn_conditions(cube, said["where"])
        self.change(cube, "drop", said["where"], "dropped")

    def run_create(self, said):
        """A cube takes an epoch that has ended at once, and no rollback takes it back."""
        cube = Cube(said["cube"])
        for column in said["columns"]:
            cube.add(column)
        if cube.fault():
            raise Refusal(20, "BadCube " + cube.fault())
        if any(other.name == cube.name for other in self.cubes):
            raise Refusal(19, "CubeExists " + cube.name)
        if len(self.cubes) == 16:
            raise Refusal(21, "TooManyCubes")
        self.cubes.append(cube)
        self.note(f"cube {self.here()} epoch {self.next_epoch}")
        self.reply(f"created epoch {self.next_epoch}")
        self.next_epoch += 1

    def run_begin(self, _):
        self.begin()
        self.state = "open"
        self.reply(f"begun {self.epoch}")

    def run_commit(self, _):
        self.commit()
        self.state = "idle"
        self.reply(f"committed {self.epoch}")

    def run_rollback(self, _):
        if self.state == "aborted":
            self.note(f"cleared {self.here()}")
        else:
            self.abort("Asked")
        self.state = "idle"
        self.reply(f"rolled back {self.epoch}")

    def run_flush(self, _):
        self.flush_round()
        self.note(f"flushed {self.here()}")
        self.reply(f"flushed {self.safe}")

    def run_purge(self, _):
        """Lets go what no snapshot can see, which no answer shows."""
        self.note(f"purged {self.here()} epoch {self.safe}")
        self.reply(f"purged {self.safe}")

    def run_show(self, _):
        self.note(f"show {self.here()}")
        pending = ",".join(map(str, sorted(self.pending)))
        self.reply(f"epochs ec {self.next_epoch} lce {self.committed()} lse {self.safe} pending [{pending}]")

    # ---- the whole

    def close(self):
        """The round behind the script."""
        self.flush_round()

    def run(self, script):
        """The whole text of a script: the replies, the journal and the counters."""
        for text in pieces(script):
            self.execute(text)
        if self.state == "open":
            self.statement += 1
            self.abort("EndOfScript")
        self.close()
        end = f"end ec {self.next_epoch} lce {self.committed()} lse {self.safe}"
        lines = ["session 1"] + self.lines + [f"journal {len(self.journal)}"] + self.journal + [end]
        return "".join(line + "\n" for line in lines)
