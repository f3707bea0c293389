"""Tries edits that the prover must refuse, on a copy of the repository: those of edits/NAME, which the gate leaves out for their time,
beside those of crates/NAME/must-fail, which it tries.

usage: python3 tools/try_edits [NAME..]

NAME is a crate; with none, each crate that has a folder in edits/ is tried. An edit has the form that `rt must-fail` reads. A crate
takes as long as its proof, twice at least, and so do the crates below it that this machine has not proved yet.
Exit status: 0 where each edit was refused.
"""

import os
import shutil
import subprocess
import sys
import tempfile


def names_given(root, words):
    with_edits = sorted(os.listdir(f"{root}/edits"))
    unknown = [it for it in words if it not in with_edits]
    if unknown:
        sys.exit(f"try_edits: there is no folder edits/{unknown[0]}")
    return words or with_edits


def try_edits(copy, root, name):
    """Returns whether each edit of the crate is refused, and prints what `rt must-fail` says."""
    to = f"{copy}/crates/{name}/must-fail"
    os.makedirs(to, exist_ok=True)
    for edit in sorted(os.listdir(f"{root}/edits/{name}")):
        shutil.copyfile(f"{root}/edits/{name}/{edit}", f"{to}/{edit}")
    return subprocess.run(["rt", "must-fail", name], cwd=copy).returncode == 0


def main(words):
    root = os.path.dirname(os.path.dirname(os.path.dirname(os.path.abspath(__file__))))
    names = names_given(root, words)
    with tempfile.TemporaryDirectory(prefix="try-edits-") as room:
        copy = f"{room}/copy"
        ignored = shutil.ignore_patterns("out", ".git", "edits")
        shutil.copytree(root, copy, ignore=ignored)
        os.mkdir(f"{copy}/.git")
        failed = [it for it in names if not try_edits(copy, root, it)]
    print(f"tried: {len(names)} crates; an edit was not refused, or not tried, in: {' '.join(failed) or 'none'}")
    return 1 if failed else 0


if __name__ == "__main__":
    sys.exit(main(sys.argv[1:]))
