"""Judges what the program wrote of some steps by the model of a shard."""
import re

from plain_shard import BRICKS, PlainShard, number_of


class Unlike(Exception):
    """What the program may not write."""


def need(holds, why):
    if not holds:
        raise Unlike(why)


def shown_bricks(lines):
    """Takes the lines of bricks: of each its cube and number, and what it has."""
    shown = {}
    while lines and (found := re.fullmatch(r"brick (\d+) (\d+):(.*):(.*)", lines[0])):
        lines.pop(0)
        words, numbers = found[3].split(), [int(it) for it in found[4].split()]
        entries = [(kind, int(epoch), int(at)) for kind, epoch, at in zip(*[iter(words)] * 3)]
        shown[int(found[1]), int(found[2])] = entries, list(zip(*[iter(numbers)] * 4))
    return shown


def judge_bricks(shard, lines):
    """Takes the lines of a whole shard, and judges them. A brick without rows may be left out."""
    need(lines.pop(0) == f"rows {shard.rows()}", "not as many rows")
    bricks, shown = int(lines.pop(0).removeprefix("bricks ")), shown_bricks(lines)
    for cube in range(2):
        for number in range(BRICKS):
            wanted, brick = shard.content(cube, number), shown.pop((cube, number), None)
            fits = brick == wanted or (brick is None and not wanted[1])
            need(fits, f"brick {number} of cube {cube} has {brick}, not {wanted}")
    need(not shown, f"bricks that no cube has: {shown}")
    return bricks


def judge_scan(lines, wanted):
    """Takes the lines of what a reader finds, and judges them."""
    need(lines.pop(0) == "scan", "no scan")
    for line in wanted:
        need(lines and lines.pop(0) == "line " + " ".join(map(str, line)), f"no line {line}")


def judge(steps, at, text):
    """Judges the text of some steps, of which the one at a place may find no memory. Whether it did, and how many
    bricks without rows were there behind it."""
    shard, lines, given = PlainShard(), text.splitlines(), set()
    fails, empty = False, []
    for place, (kind, *parts) in enumerate(steps):
        if kind == "append":
            answer = lines.pop(0)
            need(answer == "appended" or (place == at and answer == "no memory"), f"step {place}: {answer}")
            if answer == "appended":
                shard.append(*parts)
                given |= {(parts[0], number_of(row)) for row in parts[2]}
            else:
                fails = True
        elif kind == "show":
            empty.append(judge_bricks(shard, lines) - len(given))
        elif kind == "scan":
            judge_scan(lines, shard.found(*parts))
        else:
            getattr(shard, kind)(*parts)
    need(not lines, f"more lines: {lines[:3]}")
    # A brick that an append was to give rows may have been born without them; the next append gives it them.
    need(0 <= empty[0] and (fails or not empty[0]) and not any(empty[1:]), f"bricks without rows: {empty}")
    return fails, empty[0]
