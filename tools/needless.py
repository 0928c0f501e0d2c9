#!/usr/bin/env python3
"""Lists the answers that a check finds alone: point 8 of docs/DESIGN-PASS.md.

usage: tools/needless.py CRATE..    run it at the top of the repository

In a copy of the repository it takes away every Answers.antt of a crate and checks the crate. An answer whose goal the
check then does not miss may be needless, and its line is printed; an answer of a clause by its name is one of its
function's. Where a function calls one that is not proved, the check may not have come to a goal, so `rt check` decides
once the answer is gone. A crate takes from seconds to a quarter of an hour, since the prover searches for each goal as
far as its limits go.
"""
import glob
import os
import re
import shutil
import subprocess
import sys
import tempfile

MISSED = re.compile(r"expected answers in \./proofs/(\S+)/Answers\.antt; `search` did not prove ((?:`[^`]+`(?:, )?)+)")


def answers(home):
    """The answers of a crate by the folder of their function."""
    found = {}
    for path in glob.glob(f"{home}/proofs/*/**/Answers.antt", recursive=True):
        with open(path, encoding="utf-8") as it:
            names = re.findall(r"^pub (\S+) : goal\.", it.read(), re.M)
        found[os.path.relpath(os.path.dirname(path), f"{home}/proofs")] = names
    return found


def is_missed(name, lacking):
    """Whether a goal, or a clause of it by its name, is among those that a check misses."""
    return any(it == name or it.startswith(f"{name}-clause-") for it in lacking)


def missed(home):
    """The goals that a check without answers misses, by the folder of their function; None where it tells nothing."""
    for path in glob.glob(f"{home}/proofs/*/**/Answers.antt", recursive=True):
        os.remove(path)
    run = subprocess.run(["rt", "check"], cwd=home, capture_output=True, text=True)
    told = MISSED.findall(run.stdout + run.stderr)
    if run.returncode and not told:
        return None
    return {folder: re.findall(r"`([^`]+)`", names) for folder, names in told}


def main():
    if not sys.argv[1:]:
        print(__doc__, file=sys.stderr)
        return 2
    for crate in sys.argv[1:]:
        with tempfile.TemporaryDirectory() as copy:
            shutil.copytree(".", f"{copy}/all", symlinks=True, ignore=shutil.ignore_patterns(".git", "build"))
            home = f"{copy}/all/crates/{crate}"
            given = answers(home)
            lacking = missed(home)
            if lacking is None:
                print(f"{crate}: the check told no goal", file=sys.stderr)
                return 1
            needless = [
                f"{it}/{name}"
                for it in sorted(given)
                for name in given[it]
                if not is_missed(name, lacking.get(it, []))
            ]
            print(f"{crate}: {sum(map(len, given.values()))} answers, {len(needless)} needless", flush=True)
            print("".join(f"    {it}\n" for it in needless), end="", flush=True)
    return 0


if __name__ == "__main__":
    sys.exit(main())
