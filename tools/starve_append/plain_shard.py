"""A shard as the list of what was done to it: what its bricks have, and what a reader finds, by a walk over that list."""
RANGES = (2, 3)
BRICKS = 8 * 4


def number_of(row):
    """The number of a row's brick."""
    return row[0] // RANGES[0] * 4 + row[1] // RANGES[1]


def has(box, row):
    """Whether a box, which cuts no brick, has a row."""
    return box[0] <= row[0] <= box[1] and box[2] <= row[1] <= box[3]


class PlainShard:
    """The deeds in order: the cube, the epoch, rows that were appended, and a box whose rows were deleted or none."""

    def __init__(self):
        self.deeds = []

    def append(self, cube, epoch, rows):
        self.deeds.append((cube, epoch, rows, None))

    def drop(self, cube, epoch, box):
        self.deeds.append((cube, epoch, [], box))

    def rollback(self, epoch):
        self.deeds = [it for it in self.deeds if it[1] != epoch]

    def rows(self):
        return sum(len(rows) for _, _, rows, _ in self.deeds)

    def content(self, cube, number):
        """The entries of a brick, there or not, and its rows."""
        entries, rows = [], []
        for of, epoch, appended, box in self.deeds:
            if of != cube:
                continue
            gained = [row for row in appended if number_of(row) == number]
            rows += gained
            if gained and entries and entries[-1][:2] == ("run", epoch):
                entries.pop()
            if gained:
                entries.append(("run", epoch, len(rows)))
            first = (number // 4 * RANGES[0], number % 4 * RANGES[1])
            mark = ("mark", epoch, len(rows))
            if box and has(box, first) and entries[-1:] != [mark]:
                entries.append(mark)
        return entries, rows

    def found(self, cube, reader):
        """For each pair of coordinates how many rows the reader at an epoch finds, and the sums of their metrics."""
        lines = {}
        for at, (of, epoch, rows, _) in enumerate(self.deeds):
            for row in rows if of == cube and epoch <= reader else []:
                hidden = any(
                    by == cube and box and has(box, row) and (epoch, at) < (later, place) and later <= reader
                    for place, (by, later, _, box) in enumerate(self.deeds)
                )
                if not hidden:
                    count, m, n = lines.get(row[:2], (0, 0, 0))
                    lines[row[:2]] = (count + 1, m + row[2], n + row[3])
        return [(*key, *totals) for key, totals in sorted(lines.items())]
