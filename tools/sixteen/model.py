"""What a run has to reply, by its journal: the committed transactions one after the other by their epochs, and over what
they leave the plain folds."""
from journal import Illegal


# ---- Cubes, operations and queries ----


def fresh():
    """Cubes without rows: for each cube, by the coordinates of a row, the metrics of all rows there."""
    return {"t": {}, "v": {}}


def copied(cubes):
    return {cube: {place: list(rows) for place, rows in kept.items()} for cube, kept in cubes.items()}


def passes(place, passing):
    return all(wanted is None or value in wanted for value, wanted in zip(place, passing))


def run(cubes, operations):
    """Goes on by operations: rows that are put, and rows that are dropped."""
    for _, it in operations:
        kept = cubes[it.cube]
        if it.form == "put":
            for place, metrics in it.rows:
                kept.setdefault(place, []).append(metrics)
        else:
            for place in [place for place in kept if passes(place, it.passing)]:
                del kept[place]


def average(total, count):
    """In ten-thousandths, cut toward zero."""
    size = abs(total) * 10_000 // count
    return -size if total < 0 else size


def folded(fold, metric, rows):
    values = [row[metric] for row in rows]
    if fold == "COUNT":
        return len(rows)
    if not rows:
        return None
    if fold == "AVG":
        return average(sum(values), len(values))
    return {"SUM": sum, "MIN": min, "MAX": max}[fold](values)


def field(fold, value):
    if value is None:
        return "NULL"
    if fold == "AVG":
        return f"{'-' if value < 0 else ''}{abs(value) // 10_000}.{abs(value) % 10_000:04}"
    return str(value)


def literal(value):
    return "'" + value.replace("'", "''") + "'" if isinstance(value, str) else str(value)


def bytewise(key):
    return [it.encode() if isinstance(it, str) else it for it in key]


def answer(cubes, query):
    """The lines of a query."""
    groups = {} if query.group else {(): []}
    for place, rows in cubes[query.cube].items():
        if passes(place, query.passing):
            groups.setdefault(tuple(place[it] for it in query.group), []).extend(rows)
    lines = []
    for key in sorted(groups, key=bytewise):
        lines.append((key, [folded(fold, metric, groups[key]) for fold, metric in query.items]))
    if query.order:
        lines.sort(key=lambda line: line[1][query.order.by], reverse=query.order.down)
        lines = lines[: query.order.limit]
    folds = [fold for fold, _ in query.items]
    return [",".join([*map(literal, key), *map(field, folds, values)]) for key, values in lines]


# ---- A session ----


class Session:
    """A session, followed statement by statement with the entries of each. What it comes to: `done`, for each epoch what
    its transaction did, by the numbers of statements; `committed`, the epochs of those that were committed; and
    `asked`, for each statement that asks for rows the word of its reply, the query, and the entry that opened its
    snapshot."""

    def __init__(self, number, statements, journal):
        self.number, self.statements, self.entries = number, statements, {}
        for it in journal:
            if it.entry.session in (number, number + 16, number + 32):
                self.entries.setdefault(it.entry.statement, []).append(it)
        self.done, self.committed, self.asked = {}, set(), {}
        # The entry that opened the transaction, the epoch of one that waits for ROLLBACK, the query that is watched, and
        # under which number.
        self.writer, self.aborted, self.watched, self.holder = None, None, None, None

    def want(self, number, *words):
        """The entries of a statement, which have to be of these words."""
        found = self.entries.pop(number, [])
        if [it.entry.word for it in found] != list(words):
            raise Illegal(f"{self.number}.{number}: entries {[it.entry for it in found]}, and not {words}")
        return found

    def refusal(self, it):
        """What refuses a statement before it does anything."""
        if it.refused.startswith("1 "):
            return it.refused
        if self.aborted and it.form not in ("rollback", "flush", "purge", "show"):
            return "14 TransactionAborted"
        if not self.writer and not self.aborted and it.form in ("commit", "rollback"):
            return "13 NoTransaction"
        if self.writer and it.form == "begin":
            return "12 TransactionOpen"
        if self.watched and it.form == "watch":
            return "23 WatchOpen"
        if not self.watched and it.form == "show watch":
            return "24 NoWatch"
        return it.refused if it.form == "bad" else ""

    def reply(self, number, it):
        """The reply to a statement; that of one that asks for rows comes when all sessions are known."""
        told = self.refusal(it)
        if not told:
            return getattr(self, it.form.replace(" ", "_"))(number, it)
        code = f"code {told.split()[0]}"
        found = self.want(number, "refused")[0].entry
        if found.rest != code:
            raise Illegal(f"{self.number}.{number}: {found}, and not {code}")
        return f"refused {told}"

    def changes(self, number, it):
        """The epoch at which a statement changes rows: of the open transaction, or of one of its own."""
        if self.writer:
            self.want(number)
            epoch = self.writer.epoch
        else:
            epoch = self.want(number, "begin", "committed", "flushed", "purged")[0].entry.epoch
            self.committed.add(epoch)
        self.done.setdefault(epoch, []).append((number, it))
        return epoch

    def put(self, number, it):
        if not it.refused:
            return "\n".join([it.told.format(epoch=self.changes(number, it)), *it.rejects])
        if self.writer:
            self.want(number, "aborted")
            self.writer, self.aborted = None, self.writer.epoch
        else:
            self.want(number, "begin", "aborted")
        return f"refused {it.refused}"

    def drop(self, number, it):
        return f"dropped epoch {self.changes(number, it)}"

    def select(self, number, it):
        if self.writer:
            self.want(number)
            self.asked[number] = ("rows", it.query, self.writer)
        else:
            self.asked[number] = ("rows", it.query, self.want(number, "read", "readend")[0].entry)

    def keeps(self, number, read, holder):
        """A watch is answered by a reader that is kept."""
        if read.session != holder:
            raise Illegal(f"{self.number}.{number}: a reader of {read.session}, and not of {holder}")
        self.holder = holder
        self.asked[number] = ("watching", self.watched, read)

    def watch(self, number, it):
        self.watched = it.query
        self.keeps(number, self.want(number, "read")[0].entry, self.number + 16)

    def show_watch(self, number, _):
        read, end = (it.entry for it in self.want(number, "read", "readend"))
        if end.session != self.holder:
            raise Illegal(f"{self.number}.{number}: {end.session} is closed, and not {self.holder}")
        self.keeps(number, read, self.number + (32 if self.holder == self.number + 16 else 16))

    def begin(self, number, _):
        self.writer = self.want(number, "begin")[0].entry
        return f"begun {self.writer.epoch}"

    def commit(self, number, _):
        epoch, self.writer = self.writer.epoch, None
        self.want(number, "committed", "flushed", "purged")
        self.committed.add(epoch)
        return f"committed {epoch}"

    def rollback(self, number, _):
        epoch = self.writer.epoch if self.writer else self.aborted
        self.want(number, "aborted" if self.writer else "cleared")
        self.writer, self.aborted = None, None
        return f"rolled back {epoch}"

    def flush(self, number, _):
        return f"flushed {self.want(number, 'flushed')[0].safe}"

    def purge(self, number, _):
        return f"purged {self.want(number, 'purged')[0].entry.epoch}"

    def show(self, number, _):
        it = self.want(number, "show")[0]
        return f"epochs {it.told} pending [{','.join(map(str, it.pending))}]"

    def follow(self):
        """The replies to all statements. The end of the script has the last entries."""
        replies = {number: self.reply(number, it) for number, it in enumerate(self.statements, 1)}
        ends = (["aborted"] if self.writer else []) + (["readend"] if self.watched else [])
        self.want(len(self.statements) + 1, *ends)
        if self.entries:
            raise Illegal(f"session {self.number} has other entries: {self.entries}")
        return replies


# ---- All sessions ----


class History:
    """What the transactions of all sessions did, and which were committed."""

    def __init__(self, sessions):
        self.done = {epoch: did for session in sessions for epoch, did in session.done.items()}
        self.committed = set().union(*(session.committed for session in sessions))
        self.kept = {}

    def keep(self, epochs):
        """Keeps what the committed transactions up to each of these epochs leave."""
        cubes, at = fresh(), 0
        for epoch in sorted(set(epochs)):
            self.go_on(cubes, range(at + 1, epoch + 1))
            at = epoch
            self.kept[epoch] = copied(cubes)

    def go_on(self, cubes, epochs):
        for epoch in epochs:
            if epoch in self.committed:
                run(cubes, self.done.get(epoch, []))

    def seen(self, opened, number):
        """What a snapshot sees; a writer's sees besides what the statements of its transaction before this one did."""
        if opened.word == "read":
            return self.kept[opened.epoch]
        base = whole(opened)
        cubes = copied(self.kept[base])
        self.go_on(cubes, [it for it in range(base + 1, opened.epoch) if it not in opened.deps])
        run(cubes, [did for did in self.done.get(opened.epoch, []) if did[0] < number])
        return cubes


def whole(opened):
    """Up to which epoch a snapshot sees all that was committed."""
    return opened.epoch if opened.word == "read" else min([*opened.deps, opened.epoch]) - 1


def replies_of(scripts, journal):
    """For each session the replies to its statements, and what all transactions left."""
    sessions = [Session(number, statements, journal) for number, statements in enumerate(scripts, 1)]
    replies = [session.follow() for session in sessions]
    history = History(sessions)
    last = max([0, *history.done])
    history.keep([last, *(whole(opened) for session in sessions for _, _, opened in session.asked.values())])
    for session, told in zip(sessions, replies):
        for number, (word, query, opened) in session.asked.items():
            lines = answer(history.seen(opened, number), query)
            told[number] = "\n".join([f"{word} {len(lines)} epoch {opened.epoch}", *lines])
    return replies, history.kept[last]
