"""Appends a batch to a shard with each of the append's allocations refused in turn, and judges what the shard has then.

    python3 tools/starve_append [PROGRAM]

Without PROGRAM it builds program.txt unproved, as a crate of a copy of the crates below it.
Each story makes a shard and appends a batch, with the first allocation of this one call refused, then with the second,
and so on; and again with all from there on until it returns. Behind the append all bricks are shown, readers look, the
same batch is appended with ample memory, and in the end its epoch is taken out. Where the append found no memory each
brick has the rows and the entries that it had before, also one that is not there: the marks that wait for it show when
it is born. What is shown is compared with a model (plain_shard.py) that knows of no room and no memory.
"""
import functools
import random
import re
import shutil
import sys
import tempfile
from pathlib import Path

HERE = Path(__file__).resolve().parent
ROOT = HERE.parent.parent
sys.path.insert(0, str(HERE.parent / "starve"))

import refusing
from building import build
from judging import Unlike, judge
from plain_shard import BRICKS, number_of

LIMIT = 1000
CUBE, EPOCH = 0, 4  # of the append


def drawn(seed, count, numbers):
    """Rows in bricks of these numbers, in no order."""
    draws, rows = random.Random(seed), []
    while len(rows) < count:
        row = (draws.randrange(16), draws.randrange(12), draws.randrange(100), draws.randrange(100))
        if number_of(row) in numbers:
            rows.append(row)
    return rows


OTHER = ("append", 1, 1, drawn(1, 20, range(BRICKS)))
OLD = ("append", 0, 1, drawn(2, 60, range(12)))
SECOND = ("append", 0, 2, drawn(3, 9, range(4)))
OWN = ("append", 0, EPOCH, drawn(4, 9, range(16)))
BOX = ("drop", 0, 3, (0, 15, 0, 5))  # it has bricks that are there, and bricks that are not
# What is done before the append, and its rows.
STORIES = {
    "old and new bricks": ([OTHER, OLD, SECOND, BOX], drawn(5, 60, range(6, 20))),
    "old bricks alone": ([OTHER, OLD, BOX], drawn(6, 100, range(12))),
    "behind another batch of its epoch": ([OLD, BOX, OWN], drawn(7, 20, range(8, 20))),
    "first rows of a cube": ([OTHER], drawn(8, 12, range(BRICKS))),
    "first rows behind a deletion, brick by brick": ([OTHER, BOX], sorted(drawn(9, 12, range(BRICKS)), key=number_of)),
    "one row, one new brick": ([OLD, BOX], drawn(10, 1, [13])),
}
LOOKS = [("show",), *(("scan", cube, epoch) for cube, epoch in ((0, 2), (0, 3), (0, 9), (1, 9)))]


def word(step):
    """A step as a word of the program: its name, and its numbers."""

    def numbers(part):
        return [n for it in part for n in numbers(it)] if isinstance(part, (list, tuple)) else [part]

    return " ".join([step[0], *map(str, numbers(step[1:]))])


def named_by(line):
    """The crates that a line of crates.txt names."""
    return line.split(":")[1].split()


def all_below(lines, crate):
    """The crates of the repository on which one stands, each behind those on which it stands itself."""
    found = []
    for name in named_by(lines[crate]):
        if name in lines:
            found += [it for it in [*all_below(lines, name), name] if it not in found]
    return found


def built(folder):
    """The program, unproved, with steps enough to run until it is found."""
    lines = [it for it in (ROOT / "crates.txt").read_text().splitlines() if re.match(r"\w+:", it)]
    lines = {it.split(":")[0]: it for it in lines}
    below = [*all_below(lines, "shard_cell"), "shard_cell"]
    for name in below:
        ignored = shutil.ignore_patterns("out")
        shutil.copytree(ROOT / "crates" / name, folder / "crates" / name, ignore=ignored)
    crate = folder / "crates" / "starved_append"
    (crate / "src").mkdir(parents=True)
    shutil.copy(HERE / "program.txt", crate / "src" / "main.rt")
    named = [*(lines[it] for it in below), f"starved_append: {' '.join(below)}"]
    (folder / "crates.txt").write_text("\n".join(named) + "\n")
    return build(crate, ["--", "20000", str(LIMIT), word(OLD), *["show"] * 5000], folder)


class Story:
    """A story that can be told with allocations refused."""

    def __init__(self, program, folder, before, batch):
        append = ("append", CUBE, EPOCH, batch)
        self.steps = [*before, append, *LOOKS, append, *LOOKS, ("rollback", EPOCH), *LOOKS]
        self.at, self.words = len(before), [str(LIMIT), *map(word, self.steps)]
        self.program, self.folder, self.places = program, folder, refusing.entries(program)
        self.judge = functools.cache(functools.partial(judge, self.steps, self.at))

    def told(self, count, first=None, last=None):
        """How a run of so many steps ended, with the allocations from one up to another refused, or all from the first."""

        def refused(number):
            return first is not None and first <= number

        words = [f"{count:02}", *self.words]
        return refusing.run(self.program, self.places, words, self.folder, refused, last)

    def judged(self, first, last):
        """Whether the append found no memory, and how many bricks without rows were there behind it."""
        ended = self.told(len(self.steps), first, last)
        if ended.status != 0 or ended.errors:
            raise Unlike(f"status {ended.status}, {ended.errors.decode()!r}")
        return self.judge(ended.output.decode())

    def allocations(self):
        """The allocations of the append."""
        ends = [self.told(count).allocations for count in (self.at, self.at + 1)]
        return range(ends[0] + 1, ends[1] + 1)

    def end(self, first):
        """The last allocation that the append asks for where all from some on are refused."""
        return self.told(self.at + 1, first).allocations


def tell(story, name):
    """Tells a story, prints how its appends ended, and tells whether each ended as it may."""
    good, those = True, story.allocations()
    fails, _ = story.judged(None, None)
    assert not fails
    for once in (True, False):
        ends, born = {}, 0
        for at, first in enumerate(those, 1):
            last = first if once else story.end(first)
            try:
                fails, empty = story.judged(first, last)
                how, born = "no memory" if fails else "appended", born + (empty > 0)
            except Unlike as why:
                good, how = False, "wrong"
                print(f"{name}, allocation {at}: {why}")
            ends.setdefault(how, []).append(at)
        told = "; ".join(f"{how} {len(at)}" for how, at in sorted(ends.items()))
        print(f"{name}, {len(those)} allocations, {'each' if once else 'all from each on'} refused: {told}")
        print(f"  bricks without rows were there behind {born} of them")
        if "appended" in ends:
            print(f"  asked again, and given: {ends['appended']}")
    return good


def main():
    with tempfile.TemporaryDirectory() as name:
        folder = Path(name)
        program = Path(sys.argv[1]).resolve() if len(sys.argv) > 1 else built(folder)
        good = [tell(Story(program, folder, *story), name) for name, story in STORIES.items()]
        sys.exit(0 if all(good) else 1)


main()
