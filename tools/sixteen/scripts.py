"""Random scripts: each statement as its text and as what it asks for, so that the model reads no SQL."""
from random import Random
from typing import NamedTuple, Optional

from model import literal

CUBES = """cube t
dim x int 5 2
metric m
cube v
dim n text 64 1
dim y int 8 2
metric k
metric l
"""

# The dimensions of each cube with their values, the ranges of each dimension, and the metrics.
NAMES = [f"n{k}" for k in range(14)] + ["", "o'q"]
DIMENSIONS = {"t": [("x", list(range(5)))], "v": [("n", NAMES), ("y", list(range(8)))]}
RANGES = {"x": [[0, 1], [2, 3], [4]], "n": [[name] for name in NAMES], "y": [[0, 1], [2, 3], [4, 5], [6, 7]]}
METRICS = {"t": ["m"], "v": ["k", "l"]}


class File(NamedTuple):
    """A file for `v`: its text, the rows of it, and the lines that tell of the records that are none."""

    text: str
    rows: list
    rejects: list


FILES = {
    "good.csv": File(
        "n1,0,5,6\nn2,7,-3,1\n\"o'q\",3,2,2\n", [(("n1", 0), (5, 6)), (("n2", 7), (-3, 1)), (("o'q", 3), (2, 2))], []
    ),
    "half.csv": File(
        "n1,1,1,1\nn1,8,1,1\nn3,6,9,-9\nn3,6,9\n",
        [(("n1", 1), (1, 1)), (("n3", 6), (9, -9))],
        ["reject 2 column y OutOfRange", "reject 4 values 3 WrongCount"],
    ),
}


class Order(NamedTuple):
    """The place of the aggregate by which lines are ordered, whether from the greatest on, and how many lines there are
    at most."""

    by: int
    down: bool
    limit: int


class Query(NamedTuple):
    """What a SELECT or a WATCH asks for: the dimensions of its groups by their places, the aggregates with the places of
    their metrics, and for each dimension the values that pass, or None where all do."""

    cube: str
    group: list
    items: list
    passing: list
    order: Optional[Order] = None


class Statement(NamedTuple):
    """A statement: its form and its text; the rows that it puts with what is told of them, or the values that it drops;
    its query; and what refuses it, whatever the session's state."""

    form: str
    text: str
    cube: str = ""
    rows: tuple = ()
    told: str = ""
    rejects: tuple = ()
    passing: tuple = ()
    query: Optional[Query] = None
    refused: str = ""


def condition(name, values):
    if len(values) == 1:
        return f"{name} = {literal(values[0])}"
    return f"{name} IN ({', '.join(map(literal, values))})"


def where(conditions):
    return f" WHERE {' AND '.join(conditions)}" if conditions else ""


def insert(dice):
    cube = dice.choice("tv")
    rows = []
    for _ in range(dice.choice([1, 1, 1, 2, 5])):
        place = tuple(dice.choice(values) for _, values in DIMENSIONS[cube])
        rows.append((place, tuple(dice.randint(-99, 99) for _ in METRICS[cube])))
    tuples = ", ".join(f"({', '.join(map(literal, place + metrics))})" for place, metrics in rows)
    return Statement("put", f"INSERT INTO {cube} VALUES {tuples}", cube, rows, f"stored {len(rows)} epoch {{epoch}}")


def load(dice):
    name, allowed = dice.choice([("good.csv", 0), ("half.csv", 1), ("half.csv", 2), ("half.csv", 3)])
    file, text = FILES[name], f"LOAD v FROM '{name}' REJECT {allowed}"
    if len(file.rejects) > allowed:
        return Statement("put", text, "v", refused=f"10 TooManyRejected {allowed + 1} allowed {allowed}")
    told = f"stored {len(file.rows)} rejected {len(file.rejects)} epoch {{epoch}}"
    return Statement("put", text, "v", file.rows, told, file.rejects)


def delete(dice):
    cube = dice.choice("tv")
    conditions, passing = [], []
    for name, _ in DIMENSIONS[cube]:
        values = sum(dice.sample(RANGES[name], dice.choice([1, 1, 2])), [])
        if dice.random() < 0.8:
            conditions.append(condition(name, values))
            passing.append(set(values))
        else:
            passing.append(None)
    return Statement("drop", f"DELETE FROM {cube}{where(conditions)}", cube, passing=passing)


def query_of(dice, watched):
    """A query and its text. That of a watch has no least and greatest values, and no order."""
    cube = dice.choice("tv")
    dimensions, metrics = DIMENSIONS[cube], METRICS[cube]
    group = dice.sample(range(len(dimensions)), dice.randint(0, len(dimensions)))
    items = [("COUNT", 0)]
    for _ in range(dice.randint(1, 3)):
        item = (dice.choice(["SUM", "AVG"] if watched else ["SUM", "AVG", "MIN", "MAX"]), dice.randrange(len(metrics)))
        if item not in items:
            items.append(item)
    conditions, passing = [], []
    for name, values in dimensions:
        some = sorted(dice.sample(values, dice.randint(1, 4)))
        if dice.random() < 0.4:
            conditions.append(condition(name, some))
            passing.append(set(some))
        else:
            passing.append(None)
    words = ["COUNT(*)" if fold == "COUNT" else f"{fold}({metrics[place]})" for fold, place in items]
    names = [dimensions[place][0] for place in group]
    text = f"SELECT {', '.join(names + words)} FROM {cube}{where(conditions)}"
    text += f" GROUP BY {', '.join(names)}" if names else ""
    order = None
    if names and not watched and dice.random() < 0.3:
        order = Order(dice.randrange(len(items)), dice.random() < 0.5, dice.randint(0, 5))
        text += f" ORDER BY {words[order.by]}{' DESC' if order.down else ''} LIMIT {order.limit}"
    return Query(cube, group, items, passing, order), text


def select(dice):
    query, text = query_of(dice, False)
    return Statement("select", text, query=query)


def watch(dice):
    query, text = query_of(dice, True)
    return Statement("watch", f"WATCH {text}", query=query)


BAD = [
    Statement("bad", "SELECT FROM t", refused="1 Syntax at 7"),
    Statement("bad", "SELECT COUNT(*) FROM w", refused="2 UnknownCube w"),
    Statement("bad", "DELETE FROM t WHERE x = 0", refused="6 CutsBrick x"),
    Statement("bad", "INSERT INTO t VALUES (5, 1)", refused="7 BadRow row 1 column x OutOfRange"),
    Statement("bad", "INSERT INTO v VALUES ('a', 1)", refused="7 BadRow row 1 values 2 WrongCount"),
    Statement("bad", "LOAD v FROM 'none.csv' REJECT 9", refused="8 NoSuchFile"),
]
PLAIN = {
    "begin": "BEGIN",
    "commit": "COMMIT",
    "rollback": "ROLLBACK",
    "flush": "FLUSH",
    "purge": "PURGE",
    "show": "SHOW EPOCHS",
    "show watch": "SHOW WATCH",
}
MADE = {"insert": insert, "load": load, "delete": delete, "select": select, "watch": watch}
# Each form as often as it comes among a hundred statements.
OFTEN = {
    "insert": 45,
    "select": 18,
    "delete": 4,
    "load": 4,
    "begin": 5,
    "commit": 7,
    "rollback": 2,
    "watch": 2,
    "show watch": 4,
    "bad": 4,
    "flush": 2,
    "purge": 1,
    "show": 2,
}


def script(seed, session, many):
    """So many statements of a session. A watch holds back what is safe, so that odd seeds have none: there are more
    rounds."""
    dice = Random(f"{seed} {session}")
    often = {form: 0 if "watch" in form and seed % 2 else times for form, times in OFTEN.items()}
    statements = []
    for form in dice.choices(list(often), list(often.values()), k=many):
        if form == "bad":
            statements.append(dice.choice(BAD))
        elif form in PLAIN:
            statements.append(Statement(form, PLAIN[form]))
        else:
            statements.append(MADE[form](dice))
    return statements
