"""The files, and further statements drawn by a generator of numbers."""

SHOPS = ["Ghent", "Malmö", "O'Neil -- Sons", "Zürich", "Oslo", "Nîmes"]
PRODUCTS = ["tea", "rye; flour", "salt", "ink", "oil"]


class Draw:
    """Numbers of a linear congruence, the same on each machine."""

    def __init__(self, seed):
        self.state = seed

    def below(self, bound):
        self.state = (self.state * 6364136223846793005 + 1442695040888963407) % 2**64
        return (self.state >> 33) % bound

    def one_of(self, choices):
        return choices[self.below(len(choices))]

    def some_of(self, choices, least, most):
        """Several choices, each once, in any order."""
        left, found = list(choices), []
        for _ in range(least + self.below(most - least + 1)):
            found.append(left.pop(self.below(len(left))))
        return found


# ---- files


def field(text):
    """A field of a file, in quotes where it needs them."""
    return '"' + text.replace('"', '""') + '"' if " " in text or "," in text else text


def order_file(draw):
    """Orders by four shops, with three records that are no rows."""
    records = []
    for _ in range(150):
        numbers = [draw.below(30), draw.below(24), 1 + draw.below(9), draw.below(5000) - 100]
        texts = [field(draw.one_of(SHOPS[:4])), field(draw.one_of(PRODUCTS[:3]))]
        records.append(",".join(texts + [str(number) for number in numbers]).encode())
    records[30:30] = [b"Rome,tea,30,1,1,1"]
    records[60:60] = [b"Gh\xffent,tea,1,1,1,1"]
    records[90:90] = [b"Rome," + b"x" * 256 + b",1,1,1,1"]
    return b"\n".join(records) + b"\n"


def minute_file(draw):
    """More rows than one batch of a load has, with a bad record in the first and one in the second."""
    records = [f"{draw.below(10)},{draw.below(1440)},{draw.below(19) - 9}" for _ in range(4200)]
    records[10], records[4150] = "3,60,much", "10,60,1"
    return "".join(record + "\n" for record in records).encode()


def rejected_file():
    """Thirteen times nine bad records and a good one."""
    bad = ["1,1", "1,1,1,1", "10,1,1", "-1,1,1", "1,1440,1", "1,1,", "a,1,1", "1,1,1.5", "1,99999999999999999999,1"]
    return "".join(record + "\n" for _ in range(13) for record in bad + ["9,1439,1"]).encode() + b"1\n" * 3


ODD = (
    b"\xef\xbb\xbf\"3\",\"60\",\"1\"\r\n"  # a mark of the byte order, and quotes
    b"\n\r\n"  # no records
    b"007,0001,-000000000000000000000000000005\r"  # zeros in front
    b"+3,60,1\n 3,60,1\n3 ,60,1\n3,60,0x1\n3,60,--1\n3,60,-\n"
    b"-0,-0,-0\n"
    b"3,60,-9223372036854775808\n3,60,9223372036854775808\n"
    b"3,60,\"1\n\"\n"  # a line end inside a field
    b"3,60,\xc3\xa9\n"
    b"10,1440,x\n"  # its first column is refused
    b",,\n"
    b"3,60,1,\n"
    b"\"3\",\"60\",\"\"\"1\"\"\"\n"
    b"3,60,4"
    b"\n3,60,\"5\n3,60,6\n"  # a quote that never ends
)

PRODUCT_FILE = "\n".join(
    ["Ghent,ink,20,1,1,1", "Ghent,oil,20,1,2,1", "Ghent,wax,30,1,4,1", "Nîmes,wax,20,1,8,1", "Nîmes,oil,20,1,16,1"]
)


def files():
    """The files by their names."""
    return {
        "orders.csv": order_file(Draw(1)),
        "minutes.csv": minute_file(Draw(2)),
        "odd.csv": ODD,
        "rejected.csv": rejected_file(),
        "empty.csv": b"",
        "products.csv": PRODUCT_FILE.encode(),
    }


# ---- statements


def text(value):
    """A value as a statement writes it."""
    return "'" + value.replace("'", "''") + "'" if isinstance(value, str) else str(value)


def listed(values):
    return "(" + ", ".join(text(value) for value in values) + ")"


COLUMNS = {
    "orders": {"shop": SHOPS, "product": PRODUCTS, "day": range(30), "hour": range(24)},
    "gauges": {"station": range(10), "minute": range(1440)},
}
METRICS = {"orders": ["units", "cents"], "gauges": ["level"]}
RANGES = {
    "orders": {"day": (30, 7), "hour": (24, 6)},
    "gauges": {"station": (10, 3), "minute": (1440, 60)},
}


def insert(draw):
    cube = draw.one_of(["orders", "orders", "gauges"])
    rows = []
    for _ in range(1 + draw.below(4)):
        row = [draw.one_of(values) for values in COLUMNS[cube].values()]
        rows.append(listed(row + [draw.below(2000) - 500 for _ in METRICS[cube]]))
    return f"INSERT INTO {cube} VALUES " + ", ".join(rows)


def condition(draw, name, values):
    """A condition on a column, which may hold of none of its values."""
    how = draw.below(3)
    if how == 0:
        return f"{name} = {text(draw.one_of(values))}"
    if how == 1 or isinstance(values, list):
        return f"{name} IN {listed(draw.some_of(values, 1, min(5, len(values))))}"
    low = draw.one_of(values)
    return f"{name} BETWEEN {low} AND {low + draw.below(len(values))}"


def select(draw):
    """A query over one of two cubes, of any shape."""
    cube = draw.one_of(["orders", "orders", "gauges"])
    columns = COLUMNS[cube]
    group = draw.some_of([name for name in columns if name != "minute"], 0, min(2, len(columns) - 1))
    aggregates = [f"{word}({name})" for word in ("SUM", "MIN", "MAX", "AVG") for name in METRICS[cube]] + ["COUNT(*)"]
    chosen = draw.some_of(aggregates, 1, 3)
    items = group + chosen
    said = f"SELECT {', '.join(items)} FROM {cube}"
    conditions = [condition(draw, name, columns[name]) for name in draw.some_of(list(columns), 0, 2)]
    if conditions:
        said += " WHERE " + " AND ".join(conditions)
    if group:
        said += " GROUP BY " + ", ".join(group)
    tested = [item for item in chosen if not item.startswith("AVG")]
    if tested and draw.below(3) == 0:
        low = draw.below(40) - 10
        said += f" HAVING {tested[0]} BETWEEN {low} AND {low + draw.below(3000)}"
    if draw.below(2) == 0:
        keys = [item + draw.one_of(["", " ASC", " DESC"]) for item in draw.some_of(items, 1, len(items))]
        said += " ORDER BY " + ", ".join(keys)
    if len(group) > 1 or draw.below(3) == 0:
        said += f" LIMIT {1 + draw.below(9)}"
    return said


def delete(draw):
    """A deletion of whole ranges of one dimension, and sometimes of one that may be cut."""
    cube = draw.one_of(["orders", "gauges"])
    name = draw.one_of(list(RANGES[cube]))
    cardinality, size = RANGES[cube][name]
    low = size * draw.below(-(-cardinality // size))
    said = f"DELETE FROM {cube} WHERE {name} BETWEEN {low} AND {low + size - 1}"
    if cube == "orders" and draw.below(2) == 0:
        said += f" AND shop IN {listed(draw.some_of(SHOPS, 1, 3))}"
    if draw.below(4) == 0:
        said += f" AND {condition(draw, name, COLUMNS[cube][name])}"
    return said


def change(draw):
    return insert(draw) if draw.below(3) else delete(draw)


def stretch(draw):
    """A few statements, half of the time as one transaction, and what they leave."""
    found = [draw.one_of(["BEGIN", "FLUSH"])]
    for _ in range(2 + draw.below(4)):
        found.append(draw.one_of([change, select, select])(draw))
    if found[0] == "BEGIN":
        found.append(draw.one_of(["COMMIT", "COMMIT", "ROLLBACK"]))
    else:
        found.append(draw.one_of(["PURGE", "SHOW EPOCHS"]))
    cube = draw.one_of(["orders", "gauges"])
    sums = ", ".join(f"SUM({name})" for name in METRICS[cube])
    return found + [f"SELECT COUNT(*), {sums} FROM {cube}"]


def drawn_statements():
    draw, found = Draw(3), []
    for _ in range(12):
        found += stretch(draw)
    return "-- ---- drawn\n" + "".join(statement + ";\n" for statement in found)
