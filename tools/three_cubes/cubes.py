"""Cubes: their declarations, what a statement may ask of them, the rows that fit them, and the boxes of deletions."""
import csv
import io
from math import prod


class Refusal(Exception):
    """A statement is refused, with a number and a text."""

    def __init__(self, number, text):
        super().__init__(number, text)
        self.number, self.text = number, text


class Dimension:
    """A dimension: its coordinates are the numbers from 0 to its cardinality, cut into ranges of a size."""

    def __init__(self, name, kind, cardinality, size):
        self.name, self.kind, self.cardinality, self.size = name, kind, cardinality, size
        self.names = []  # the texts that have a number, in the order of first sight

    def has_room(self):
        """Whether a further text can have a number."""
        return len(self.names) < self.cardinality

    def learns(self, name):
        """Gives a text a number, and tells whether it has one then."""
        if name in self.names:
            return True
        if not self.has_room():
            return False
        self.names.append(name)
        return True


class Cube:
    """A cube: its dimensions and then its metrics, each kind in the order of its declaration."""

    def __init__(self, name):
        self.name, self.dimensions, self.metrics = name, [], []

    def add(self, column):
        """Adds a column as a declaration has it."""
        if column[0] == "metric":
            self.metrics.append(column[1])
        else:
            self.dimensions.append(Dimension(column[1], column[0], column[2], column[3]))

    def columns(self):
        return [dimension.name for dimension in self.dimensions] + self.metrics

    def dimension(self, name):
        return next((dimension for dimension in self.dimensions if dimension.name == name), None)

    def fault(self):
        """What makes it no cube that can be stored, if anything does."""
        columns = self.columns()
        for place, name in enumerate(columns):
            if name in columns[:place]:
                return "DuplicateName " + name
        for dimension in self.dimensions:
            if dimension.cardinality == 0 or dimension.size == 0:
                return "ZeroCardinality " + dimension.name
        for dimension in self.dimensions:
            if dimension.size > dimension.cardinality:
                return "RangeTooLarge " + dimension.name
        if prod(-(-dimension.cardinality // dimension.size) for dimension in self.dimensions) > 2**62:
            return "TooManyBricks"
        if len(self.dimensions) > 16 or len(self.metrics) > 16:
            return "TooManyColumns"
        return None if self.metrics else "NoMetric"


def declared_cubes(text):
    """The cubes of a cubes file, which is in order."""
    cubes = []
    for line in text.decode().split("\n"):
        words = line.removesuffix("\r").replace("\t", " ").split()
        if not words or words[0].startswith("#"):
            continue
        if words[0] == "cube":
            cubes.append(Cube(words[1]))
        elif words[0] == "metric":
            cubes[-1].add(("metric", words[1]))
        else:
            cubes[-1].add((words[2], words[1], int(words[3]), int(words[4])))
    assert not any(cube.fault() for cube in cubes) and len({cube.name for cube in cubes}) == len(cubes)
    return cubes


# ---- what a statement may ask of its cube


def kind_of(value):
    """The kind of dimension that a value can be compared with."""
    return "text" if isinstance(value, str) else "int"


def uses(said):
    """The columns that a statement names, from left to right, each with the values that it is compared with."""
    found = [(name, word, []) for word, name in said.get("items", [])]
    found += [(name, how, values) for name, how, values in said["where"]]
    found += [(name, "plain", []) for name in said.get("group", [])]
    found += [(name, word, []) for (word, name), _, _ in said.get("having", [])]
    found += [(name, word, []) for (word, name), _ in said.get("order", [])]
    return [use for use in found if use[0] != "*"]


def is_misused(cube, name, how, values):
    """Whether a use of a column is against its kind: a metric where a dimension has to stand, or the other way round."""
    dimension = cube.dimension(name)
    if how in ("SUM", "MIN", "MAX", "AVG"):
        return dimension is not None
    if dimension is None:
        return True
    if how == "BETWEEN" and dimension.kind == "text":
        return True
    return any(kind_of(value) != dimension.kind for value in values)


def printed(item):
    """An item as a refusal names it."""
    word, name = item
    return name if word == "plain" else f"{word}({name})"


def check_names(cube, said):
    """A name that the cube lacks comes before one that is used against its kind; of each the leftmost is named."""
    for name, _, _ in uses(said):
        if name not in cube.columns():
            raise Refusal(3, "UnknownColumn " + name)
    for name, how, values in uses(said):
        if is_misused(cube, name, how, values):
            raise Refusal(4, "WrongKind " + name)


def check_select(cube, said):
    """Names come first, then plain items, then the items of HAVING and ORDER BY, and averages in HAVING last."""
    check_names(cube, said)
    for word, name in said["items"]:
        if word == "plain" and name not in said["group"]:
            raise Refusal(5, "NotGrouped " + name)
    for item in [test[0] for test in said["having"]] + [key[0] for key in said["order"]]:
        if item not in said["items"]:
            raise Refusal(26, "NotAnItem " + printed(item))
    for item, _, _ in said["having"]:
        if item[0] == "AVG":
            raise Refusal(27, "BadHaving " + printed(item))


# ---- boxes


def holds(condition, value):
    """Whether a condition, or a test of HAVING, holds of a value."""
    _, how, values = condition
    if how == "BETWEEN":
        return values[0] <= value <= values[1]
    return value in values


def is_in_box(cube, conditions, row):
    """Whether all conditions hold of a row."""
    values = dict(zip(cube.columns(), row))
    return all(holds(condition, values[condition[0]]) for condition in conditions)


def cuts(dimension, conditions):
    """Whether a box has a part of a range of this dimension and not the whole of it."""
    mine = [condition for condition in conditions if condition[0] == dimension.name]
    if not mine:
        return False
    if dimension.kind == "text":
        return dimension.size != 1
    assert dimension.cardinality <= 100_000, "each coordinate is looked at"
    for begin in range(0, dimension.cardinality, dimension.size):
        coordinates = range(begin, min(begin + dimension.size, dimension.cardinality))
        if len({all(holds(condition, value) for condition in mine) for value in coordinates}) == 2:
            return True
    return False


def check_delete(cube, said):
    """Names come first, and then the first dimension, in the order of the cube, of which the box cuts a range."""
    check_names(cube, said)
    for dimension in cube.dimensions:
        if cuts(dimension, said["where"]):
            raise Refusal(6, "CutsBrick " + dimension.name)


def learn_conditions(cube, conditions):
    """A deletion gives its texts numbers, where there is room and a row could have them."""
    for name, _, values in conditions:
        for value in values:
            if isinstance(value, str) and len(value.encode()) <= 255:
                cube.dimension(name).learns(value)


# ---- rows


def misfit_of_value(cube, place, value):
    """Why a value of an INSERT does not fit its column, if it does not."""
    if place >= len(cube.dimensions):
        return None if isinstance(value, int) else "NotNumber"
    dimension = cube.dimensions[place]
    if dimension.kind == "text":
        if not isinstance(value, str):
            return "NotText"
        return "TooLong" if len(value.encode()) > 255 else None
    if not isinstance(value, int):
        return "NotNumber"
    return None if 0 <= value < dimension.cardinality else "OutOfRange"


def value_of_field(cube, place, field):
    """What a field of a file says in its column: a number, a text, or nothing that fits there."""
    if place < len(cube.dimensions) and cube.dimensions[place].kind == "text":
        try:
            return field.decode()
        except UnicodeDecodeError:
            return None
    digits = field.removeprefix(b"-")
    if not digits.isdigit() or not -(2**63) <= int(field) < 2**63:
        return None
    return int(field)


def check_insert(cube, rows):
    """The first bad value is named, by rows and then by columns; that a row has another length comes before its values."""
    columns = cube.columns()
    for number, row in enumerate(rows, 1):
        if len(row) != len(columns):
            raise Refusal(7, f"BadRow row {number} values {len(row)} WrongCount")
        for place, value in enumerate(row):
            reason = misfit_of_value(cube, place, value)
            if reason:
                raise Refusal(7, f"BadRow row {number} column {columns[place]} {reason}")


def learn_row(cube, row):
    """Gives the texts of a row numbers, from left to right; the first dimension and text without room, if any."""
    for dimension, value in zip(cube.dimensions, row):
        if dimension.kind == "text" and not dimension.learns(value):
            return (dimension, value)
    return None


def quoted(text):
    """A text between quotes, with each quote in it doubled."""
    return "'" + text.replace("'", "''") + "'"


def learn_rows(cube, rows):
    """Gives the texts of an INSERT numbers, until one finds no room; those before it stay."""
    for row in rows:
        full = learn_row(cube, row)
        if full:
            raise Refusal(15, "DictionaryFull " + quoted(full[1]))


def records_of(content):
    """The records of a file, each a list of fields. Bytes go through the reader as letters of Latin-1."""
    text = content.removeprefix(b"\xef\xbb\xbf").decode("latin-1")
    for record in csv.reader(io.StringIO(text, newline="")):
        if record:
            yield [field.encode("latin-1") for field in record]


def row_of(cube, record):
    """The row of a record, or why it is none."""
    columns = cube.columns()
    if len(record) != len(columns):
        return None, f"values {len(record)} WrongCount"
    row = []
    for place, field in enumerate(record):
        value = value_of_field(cube, place, field)
        is_text = place < len(cube.dimensions) and cube.dimensions[place].kind == "text"
        reason = ("NotText" if is_text else "NotNumber") if value is None else misfit_of_value(cube, place, value)
        if reason:
            return None, f"column {columns[place]} {reason}"
        row.append(value)
    full = learn_row(cube, row)
    if full:
        return None, f"column {full[0].name} DictionaryFull"
    return row, None


def loaded_rows(cube, content, allowed):
    """The rows of a file and the records that are none, unless these are more than are allowed."""
    rows, rejected = [], []
    for number, record in enumerate(records_of(content), 1):
        row, reason = row_of(cube, record)
        if row is None:
            rejected.append(f"reject {number} {reason}")
        else:
            rows.append(row)
        if len(rejected) > allowed:
            raise Refusal(10, f"TooManyRejected {len(rejected)} allowed {allowed}")
    return rows, rejected
