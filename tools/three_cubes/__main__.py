"""Writes the script of three cubes, its files, and the text that a run of it has to write.

    python3 tools/three_cubes FOLDER

FOLDER/files has what is read, three_cubes.cubes, three_cubes.sql and the files of its LOADs; FOLDER/text what has to be written.
`make compare` runs the program on them, and compares. The model of a session was
written from the rules and shares nothing with the program: it keeps plain lists of rows and of deletions, and goes over all of
them for each query. The answers are compared with sqlite's, where its numbers reach.
"""
import sys
from pathlib import Path

from cubes import declared_cubes
from drawn import drawn_statements, files
from grammar import pieces
from script import CUBES, DELETIONS, ENDING, MADE, OPENING, QUERIES, TRANSACTIONS
from session import Session


def whole_script():
    """The statements in their order, with long names and texts put in."""
    parts = [OPENING, QUERIES, DELETIONS, TRANSACTIONS, MADE, drawn_statements(), ENDING]
    return "\n".join(parts).replace("LONG_TEXT", "é" * 128).replace("NAME_OF_64", "n" * 64).encode()


def main():
    folder = Path(sys.argv[1])
    cubes, script, given = CUBES.encode(), whole_script(), files()
    session = Session(declared_cubes(cubes), given)
    text = session.run(script)
    (folder / "files").mkdir(parents=True, exist_ok=True)
    for name, content in [("three_cubes.cubes", cubes), ("three_cubes.sql", script), *given.items()]:
        (folder / "files" / name).write_bytes(content)
    (folder / "text").write_bytes(text.encode())
    refusals = ", ".join(f"{number}: {count}" for number, count in sorted(session.numbers.items()))
    print(f"{len(pieces(script))} statements; refusals by number: {refusals}")
    print(f"{session.judge.agreed} answers are sqlite's too, {session.judge.passed_over} were not asked for")


main()
