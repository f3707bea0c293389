"""What a query answers over rows, by plain lists; and the same by sqlite, as a judge."""
import sqlite3

from cubes import holds, is_in_box, quoted


class Decimal(int):
    """Ten thousandths of an average, cut toward zero."""


def average(total, count):
    """A sum divided by a count, cut to four digits behind the point."""
    cut = abs(total) * 10_000 // count
    return Decimal(-cut if total < 0 else cut)


def computed(item, group, rows, names):
    """An item over the rows of a group; none over no rows."""
    word, name = item
    if word == "COUNT":
        return len(rows)
    if word == "plain":
        return group[name]
    numbers = [row[names.index(name)] for row in rows]
    if not numbers:
        return None
    if word == "AVG":
        return average(sum(numbers), len(numbers))
    return {"SUM": sum, "MIN": min, "MAX": max}[word](numbers)


def in_order(value):
    """What a value is ordered by: texts go by bytes."""
    return value.encode() if isinstance(value, str) else value


def table_of(cube, said, rows):
    """The lines of a query over these rows, before any is left out."""
    names = cube.columns()
    groups = {} if said["group"] else {(): []}
    for row in rows:
        if is_in_box(cube, said["where"], row):
            key = tuple(row[names.index(name)] for name in said["group"])
            groups.setdefault(key, []).append(row)
    lines = []
    for key in sorted(groups, key=lambda key: [in_order(value) for value in key]):
        group = dict(zip(said["group"], key))
        lines.append([computed(item, group, groups[key], names) for item in said["items"]])
    return lines


def first_of(said, lines):
    """The lines that pass the tests, by the keys, up to the limit."""

    def passes(line):
        for test in said["having"]:
            value = line[said["items"].index(test[0])]
            if value is None or not holds(test, value):
                return False
        return True

    lines = [line for line in lines if passes(line)]
    for item, descends in reversed(said["order"]):
        place = said["items"].index(item)
        lines.sort(key=lambda line: (line[place] is not None, in_order(line[place])), reverse=descends)
    return lines if said["limit"] is None else lines[: said["limit"]]


def field_of(value):
    """A field of a reply."""
    if value is None:
        return "NULL"
    if isinstance(value, str):
        return quoted(value)
    if isinstance(value, Decimal):
        whole, rest = divmod(abs(value), 10_000)
        return f"{'-' if value < 0 else ''}{whole}.{rest:04}"
    return str(value)


# ---- the judge


class Judge:
    """Asks sqlite for the answers, where its numbers and its aggregates can give them."""

    def __init__(self):
        self.agreed, self.passed_over = 0, 0

    def compare(self, cube, said, rows, lines):
        """Compares the lines of an answer with those of sqlite."""
        try:
            found = self.ask(cube, said, rows)
        except (sqlite3.OperationalError, OverflowError) as error:
            assert "overflow" in str(error) or "too large" in str(error), error
            found = None
        if found is None or any(isinstance(value, float) for line in found for value in line):
            self.passed_over += 1
            return
        assert found == lines, (said, found, lines)
        self.agreed += 1

    def ask(self, cube, said, rows):
        """The lines that sqlite answers: the groups first, and then tests, keys and the limit over them."""
        base = sqlite3.connect(":memory:")
        kinds = ["TEXT" if dimension.kind == "text" else "INTEGER" for dimension in cube.dimensions]
        kinds += ["INTEGER"] * len(cube.metrics)
        columns = [f'"{name}" {kind}' for name, kind in zip(cube.columns(), kinds)]
        base.execute(f"CREATE TABLE rows ({', '.join(columns)})")
        base.executemany(f"INSERT INTO rows VALUES ({', '.join('?' * len(kinds))})", rows)
        items = [f"{self.sql_of(item)} AS i{place}" for place, item in enumerate(said["items"])]
        groups = [f'"{name}" AS g{place}' for place, name in enumerate(said["group"])]
        inner = f"SELECT {', '.join(items + groups)} FROM rows"
        values = []
        if said["where"]:
            tests = [self.test_of(f'"{name}"', how, given, values) for name, how, given in said["where"]]
            inner += " WHERE " + " AND ".join(tests)
        if said["group"]:
            inner += " GROUP BY " + ", ".join(f'"{name}"' for name in said["group"])
        outer = f"SELECT {', '.join(f'i{place}' for place in range(len(items)))} FROM ({inner})"
        if said["having"]:
            tests = [self.test_of(self.alias(said, item), how, given, values) for item, how, given in said["having"]]
            outer += " WHERE " + " AND ".join(tests)
        keys = [self.alias(said, item) + (" DESC" if descends else "") for item, descends in said["order"]]
        keys += [f"g{place}" for place in range(len(groups))]
        if keys:
            outer += " ORDER BY " + ", ".join(keys)
        if said["limit"] is not None:
            outer += f" LIMIT {said['limit']}"
        return [list(line) for line in base.execute(outer, values)]

    def sql_of(self, item):
        """An item in the words of sqlite, an average as ten thousandths."""
        word, name = item
        if word == "plain":
            return f'"{name}"'
        if word == "AVG":
            return f'SUM("{name}") * 10000 / COUNT(*)'
        return "COUNT(*)" if word == "COUNT" else f'{word}("{name}")'

    def alias(self, said, item):
        """The name under which an item stands in the inner query."""
        return f"i{said['items'].index(item)}"

    def test_of(self, subject, how, given, values):
        """A condition or a test, whose values are given apart."""
        values.extend(given)
        if how == "BETWEEN":
            return f"{subject} BETWEEN ? AND ?"
        return f"{subject} IN ({', '.join('?' * len(given))})"
