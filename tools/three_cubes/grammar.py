"""Statements of a script: where they stand, and what their texts say."""

KEYWORDS = set(
    "SELECT FROM WHERE AND IN BETWEEN GROUP BY SUM COUNT MIN MAX AVG INSERT INTO VALUES LOAD REJECT DELETE BEGIN COMMIT "
    "ROLLBACK FLUSH PURGE SHOW EPOCHS CREATE CUBE DIM METRIC TEXT INT HAVING ORDER LIMIT ASC DESC WATCH".split()
)
LETTERS = "abcdefghijklmnopqrstuvwxyzABCDEFGHIJKLMNOPQRSTUVWXYZ_"
DIGITS = "0123456789"
BLANKS = b" \t\r\n"
AGGREGATES = ("SUM", "MIN", "MAX", "AVG", "COUNT")


class Syntax(Exception):
    """A text that is no statement, with the place that says so."""

    def __init__(self, at):
        super().__init__(at)
        self.at = at


def pieces(script):
    """The texts of the statements of a script, in order."""
    found, begin, at = [], None, 0
    while at <= len(script):
        if at == len(script) or script[at : at + 1] == b";":
            if begin is not None:
                found.append(script[begin:at])
            begin, at = None, at + 1
        elif script[at : at + 2] == b"--":
            end = script.find(b"\n", at)
            at = len(script) if end < 0 else end
        elif script[at : at + 1] == b"'":
            begin = at if begin is None else begin
            end = script.find(b"'", at + 1)
            at = len(script) if end < 0 else end + 1
        else:
            if begin is None and script[at] not in BLANKS:
                begin = at
            at += 1
    return found


def end_of(text, at, letters):
    """The place behind the letters that stand from a place on."""
    while at < len(text) and chr(text[at]) in letters:
        at += 1
    return at


def tokens(text):
    """The tokens of a text: for each its kind, its value and its place."""
    found, at = [], 0
    while at < len(text):
        letter = chr(text[at])
        if text[at] in BLANKS:
            at += 1
        elif text[at : at + 2] == b"--":
            end = text.find(b"\n", at)
            at = len(text) if end < 0 else end
        elif letter in LETTERS:
            end = end_of(text, at, LETTERS + DIGITS)
            found.append(("word", text[at:end].decode(), at))
            at = end
        elif letter in DIGITS or (letter == "-" and text[at + 1 : at + 2].isdigit()):
            end = end_of(text, at + 1, DIGITS)
            number = int(text[at:end])
            if not -(2**63) <= number < 2**63:
                raise Syntax(at)
            found.append(("number", number, at))
            at = end
        elif letter == "'":
            end, value = at + 1, b""
            while True:
                quote = text.find(b"'", end)
                if quote < 0:
                    raise Syntax(at)
                value += text[end:quote]
                end = quote + 1
                if text[end : end + 1] != b"'":
                    break
                value += b"'"
                end += 1
            found.append(("text", value.decode(), at))
            at = end
        elif letter in "(),=*":
            found.append(("mark", letter, at))
            at += 1
        else:
            raise Syntax(at)
    return found


class Reader:
    """Reads one statement from left to right, and stops at the first token that none has there."""

    def __init__(self, text):
        self.tokens = tokens(text)
        self.length = len(text)
        self.next = 0

    def stop(self):
        """Stops at the next token, or at the end of the text where there is none."""
        raise Syntax(self.tokens[self.next][2] if self.next < len(self.tokens) else self.length)

    def sees(self, kind, wanted=None):
        """Whether the next token is of a kind, and of this value where one is wanted."""
        if self.next == len(self.tokens):
            return False
        found, value, _ = self.tokens[self.next]
        if found != kind:
            return False
        return wanted is None or (value.upper() if kind == "word" else value) == wanted

    def take(self, kind, wanted=None):
        """Takes a token that has to stand here."""
        if not self.sees(kind, wanted):
            self.stop()
        self.next += 1
        return self.tokens[self.next - 1][1]

    def takes(self, kind, wanted):
        """Takes a token that may stand here, and tells whether it did."""
        if self.sees(kind, wanted):
            self.next += 1
            return True
        return False

    def name(self):
        """A word that is no keyword, of at most 64 letters."""
        if not self.sees("word"):
            self.stop()
        word = self.tokens[self.next][1]
        if word.upper() in KEYWORDS or len(word) > 64:
            self.stop()
        return self.take("word")

    def number(self, least, most):
        """A number between bounds."""
        if not self.sees("number") or not least <= self.tokens[self.next][1] <= most:
            self.stop()
        return self.take("number")

    def any_number(self):
        return self.number(-(2**63), 2**63 - 1)

    def value(self):
        return self.take("text") if self.sees("text") else self.any_number()

    def several(self, part):
        """A part, and further ones behind commas."""
        found = [part()]
        while self.takes("mark", ","):
            found.append(part())
        return found

    def in_brackets(self, part):
        self.take("mark", "(")
        found = self.several(part)
        self.take("mark", ")")
        return found

    def aggregate(self):
        for word in AGGREGATES:
            if self.takes("word", word):
                self.take("mark", "(")
                if word == "COUNT":
                    self.take("mark", "*")
                    name = "*"
                else:
                    name = self.name()
                self.take("mark", ")")
                return (word, name)
        return self.stop()

    def item(self):
        if any(self.sees("word", word) for word in AGGREGATES):
            return self.aggregate()
        return ("plain", self.name())

    def test_of(self, subject, part):
        """What a condition or a test says of its subject."""
        if self.takes("mark", "="):
            return (subject, "=", [part()])
        if self.takes("word", "IN"):
            return (subject, "IN", self.in_brackets(part))
        self.take("word", "BETWEEN")
        low = part()
        self.take("word", "AND")
        return (subject, "BETWEEN", [low, part()])

    def joined(self, part):
        """Parts that stand with AND between them."""
        found = [part()]
        while self.takes("word", "AND"):
            found.append(part())
        return found

    def conditions(self):
        if not self.takes("word", "WHERE"):
            return []
        return self.joined(lambda: self.test_of(self.name(), self.value))

    def key(self):
        item = self.item()
        if self.takes("word", "DESC"):
            return (item, True)
        self.takes("word", "ASC")
        return (item, False)

    def select(self):
        items = self.several(self.item)
        self.take("word", "FROM")
        said = {"form": "SELECT", "items": items, "cube": self.name(), "where": self.conditions()}
        said["group"] = []
        if self.takes("word", "GROUP"):
            self.take("word", "BY")
            said["group"] = self.several(self.name)
        return said

    def whole_select(self):
        said = self.select()
        said["having"], said["order"], said["limit"] = [], [], None
        if self.takes("word", "HAVING"):
            said["having"] = self.joined(lambda: self.test_of(self.aggregate(), self.any_number))
        if self.takes("word", "ORDER"):
            self.take("word", "BY")
            said["order"] = self.several(self.key)
        if self.takes("word", "LIMIT"):
            said["limit"] = self.number(0, 2**63 - 1)
        return said

    def column(self):
        """A column of a cube, each kind in its place."""
        if self.takes("word", "METRIC"):
            return ("metric", self.name())
        self.take("word", "DIM")
        name = self.name()
        kind = "text" if self.takes("word", "TEXT") else "int"
        if kind == "int":
            self.take("word", "INT")
        cardinality = self.number(0, 2**32 - 1)
        return (kind, name, cardinality, self.number(0, 2**32 - 1))

    def insert(self):
        self.take("word", "INTO")
        cube = self.name()
        self.take("word", "VALUES")
        return {"form": "INSERT", "cube": cube, "rows": self.several(lambda: self.in_brackets(self.value))}

    def load(self):
        cube = self.name()
        self.take("word", "FROM")
        path = self.take("text")
        self.take("word", "REJECT")
        return {"form": "LOAD", "cube": cube, "path": path, "reject": self.number(0, 2**63 - 1)}

    def form(self):
        """The statement by its first words."""
        if self.takes("word", "SELECT"):
            return self.whole_select()
        if self.takes("word", "INSERT"):
            return self.insert()
        if self.takes("word", "LOAD"):
            return self.load()
        if self.takes("word", "DELETE"):
            self.take("word", "FROM")
            return {"form": "DELETE", "cube": self.name(), "where": self.conditions()}
        if self.takes("word", "CREATE"):
            self.take("word", "CUBE")
            return {"form": "CREATE", "cube": self.name(), "columns": self.in_brackets(self.column)}
        if self.takes("word", "WATCH"):
            self.take("word", "SELECT")
            return {"form": "WATCH", "query": self.select()}
        if self.takes("word", "SHOW"):
            if self.takes("word", "WATCH"):
                return {"form": "WATCH"}
            self.take("word", "EPOCHS")
            return {"form": "SHOW"}
        for word in ("BEGIN", "COMMIT", "ROLLBACK", "FLUSH", "PURGE"):
            if self.takes("word", word):
                return {"form": word}
        return self.stop()

    def whole(self):
        """The statement, behind which nothing is left."""
        said = self.form()
        if self.next < len(self.tokens):
            self.stop()
        return said


def statement_of(text):
    """What a text says; Syntax where it is no statement."""
    said = Reader(text).whole()
    assert said["form"] != "WATCH", "a script with a WATCH is not run"
    return said
