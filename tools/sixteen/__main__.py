"""Runs sixteen sessions beside each other, many times, and judges each run by its journal.

usage: python3 tools/sixteen [PROGRAM] [--times N] [--statements N] [--first N] [--no-store]

PROGRAM is cubrick's, bin/cubrick if none is named. Each run is over eight shards, with a round after every commit, and with a
store on real files that is then opened again; a session has a thousand statements (--statements). There are ten runs
(--times), with the seeds 1 (--first) and on: a seed makes the scripts, but not the order in which their statements come,
which is each run's own.

By a model in Python, which knows the program only by its text: each entry of the journal may stand behind those before
it; each statement has the entries that its form leaves, and is answered as it has to be; each query has the plain folds
over what its snapshot sees; the closing line has the counters; and the opened store has what all transactions left.

Exit status: 0 where each run was so, and ended within a minute.
"""
import argparse
import subprocess
import sys
import tempfile
import time
from pathlib import Path

from journal import Illegal, judged
from model import answer, fresh, literal, replies_of
from scripts import CUBES, DIMENSIONS, FILES, METRICS, Query, script

SESSIONS = 16
LIMIT = 60


def written(words, folder):
    """The text of a run, and its seconds."""
    begun = time.perf_counter()
    ended = subprocess.run(words, cwd=folder, capture_output=True, text=True)
    seconds = time.perf_counter() - begun
    if ended.returncode != 0:
        raise Illegal(f"status {ended.returncode}: {ended.stderr.strip()}")
    return ended.stdout, seconds


def parts(text):
    """The replies, the lines of the journal, and the closing line."""
    replies, _, rest = text.partition("\njournal ")
    lines = rest.splitlines()
    if len(lines) < 2 or int(lines[0]) != len(lines) - 2:
        raise Illegal(f"a text without its journal: {text[-200:]}")
    return replies, lines[1:-1], lines[-1]


def compare(found, wanted, what):
    """The first line that differs."""
    for at, (one, other) in enumerate(zip([*found, "nothing"], [*wanted, "nothing"])):
        if one != other:
            raise Illegal(f"{what}, line {at + 1}: {one}, and not {other}")


def told(replies):
    """The replies as the text has them."""
    lines = []
    for session, its in enumerate(replies, 1):
        lines.append(f"session {session}")
        for number, reply in its.items():
            lines += f"{session}.{number} {reply}".splitlines()
    return lines


def all_rows(cube):
    """A query that has all of a cube, and its text."""
    dimensions, metrics = DIMENSIONS[cube], METRICS[cube]
    names = [name for name, _ in dimensions]
    items = [("COUNT", 0)] + [("SUM", place) for place in range(len(metrics))]
    asked = ", ".join(names + ["COUNT(*)"] + [f"SUM({name})" for name in metrics])
    query = Query(cube, list(range(len(names))), items, [None] * len(names))
    return query, f"SELECT {asked} FROM {cube} GROUP BY {', '.join(names)};\n"


def reopened(program, folder, epoch, cubes):
    """The store, opened again, has these cubes at this epoch."""
    asked = [all_rows(cube) for cube in fresh()]
    (folder / "all.sql").write_text("".join(text for _, text in asked))
    text, _ = written([program, "--cubes", "cubes", "--store", "s", "all.sql"], folder)
    replies = {}
    for number, (query, _) in enumerate(asked, 1):
        lines = answer(cubes, query)
        replies[number] = "\n".join([f"rows {len(lines)} epoch {epoch}", *lines])
    compare(parts(text)[0].splitlines(), told([replies]), "the opened store")


def one_run(program, folder, seed, many, stored):
    """Runs the scripts of a seed, judges the run, and answers its seconds and what it came to."""
    scripts = [script(seed, session, many) for session in range(1, SESSIONS + 1)]
    (folder / "cubes").write_text(CUBES)
    for name, file in FILES.items():
        (folder / name).write_text(file.text)
    names = [f"{session}.sql" for session in range(1, SESSIONS + 1)]
    for name, statements in zip(names, scripts):
        (folder / name).write_text("".join(it.text + ";\n" for it in statements))
    words = [program, "--cubes", "cubes", "--shards", "8", "--round-every", "1"]
    words += ["--store", "s", "--new"] if stored else []
    text, seconds = written(words + names, folder)
    replies, lines, end = parts(text)
    journal, counters = judged(lines)
    wanted, cubes = replies_of(scripts, journal)
    compare(replies.splitlines(), told(wanted), "replies")
    compare([end], [f"end {counters.text()}"], "the closing line")
    if counters.open or counters.pending or counters.safe != counters.committed():
        raise Illegal(f"the run ends with {counters.open}, {counters.pending} and {counters.text()}")
    if stored:
        reopened(program, folder, counters.safe, cubes)
    rounds = sum(it.entry.word == "safe" for it in journal)
    commits = sum(it.entry.word == "committed" for it in journal)
    beside = sum(bool(it.entry.deps) for it in journal)
    rows = sum(len(rows) for kept in cubes.values() for rows in kept.values())
    return seconds, f"{len(journal)} entries, {commits} commits, {beside} transactions that began beside others, {rounds} rounds, {rows} rows"


def main(words):
    parser = argparse.ArgumentParser(description=__doc__, formatter_class=argparse.RawDescriptionHelpFormatter)
    parser.add_argument("program", nargs="?", default=str(Path(__file__).resolve().parents[2] / "bin" / "cubrick"))
    parser.add_argument("--times", type=int, default=10)
    parser.add_argument("--statements", type=int, default=1000)
    parser.add_argument("--first", type=int, default=1)
    parser.add_argument("--no-store", action="store_true")
    given = parser.parse_args(words)
    program, slowest = str(Path(given.program).resolve()), 0.0
    for seed in range(given.first, given.first + given.times):
        with tempfile.TemporaryDirectory(prefix="sixteen-") as folder:
            try:
                seconds, came = one_run(program, Path(folder), seed, given.statements, not given.no_store)
            except Illegal as fault:
                print(f"seed {seed}: {fault}")
                return 1
        print(f"seed {seed}: {seconds:.2f} s, {came}", flush=True)
        slowest = max(slowest, seconds)
    print(f"{given.times} runs of {SESSIONS} sessions, {given.statements} statements each: as the model has it; the slowest took {slowest:.2f} s")
    return 0 if slowest <= LIMIT else 1


if __name__ == "__main__":
    sys.exit(main(sys.argv[1:]))
