#!/usr/bin/env python3
"""Times `resume` and each of 2,100 signatures in two levels: the median, the longest, and those that end a bottom tree.

usage: signing.py [--runs N]

A program (bench/signing/main.body) is put above `ab_hss` in a copy of it and of the crates below; `rt run` proves what is new there, and
builds. The program is then run N times (5). It tells how long each call took by the clock, so of each call the least of all runs counts:
a call during which the system ran another process is seldom so each time. All take some two minutes where `ab_hss` is proved."""

import re
import shutil
import statistics
import subprocess
import sys
import tempfile
from pathlib import Path

from programs import TOP, end_in_order, parser_of

SOURCE = Path(__file__).resolve().with_suffix("") / "main.body"
# The leaves of a bottom tree. The call that uses the last of them makes the inner nodes of the next tree.
LEAVES = 1024


def crates_below(name):
    """The crates on which one stands, and the crate."""
    lines = dict(re.findall(r"^(\w+):(.*)$", (TOP / "crates.txt").read_text(), re.MULTILINE))
    found = [name]
    for crate in found:
        found += [other for other in lines[crate].split() if other in lines and other not in found]
    return {crate: lines[crate] for crate in found}


def built(folder):
    """Builds the program in a folder, and gives its path."""
    crates = crates_below("ab_hss")
    for crate in crates:
        shutil.copytree(TOP / "crates" / crate, folder / "crates" / crate, ignore=shutil.ignore_patterns("must-fail"))
    shutil.copy(TOP / "HANDLES", folder)
    (folder / "crates.txt").write_text("".join(f"{crate}:{below}\n" for crate, below in crates.items()) + "signing: ab_hss\n")
    crate = folder / "crates" / "signing"
    (crate / "src").mkdir(parents=True)
    shutil.copy(SOURCE, crate / "src" / "main.rt")
    done = subprocess.run(["rt", "run"], cwd=crate, capture_output=True, text=True)
    program = crate / "out" / "signing"
    if done.returncode or not program.exists():
        sys.exit(f"signing: it isn't built:\n{done.stderr[-2000:]}")
    return program


def least_times(program, count):
    """The microseconds of each call, the least of all runs."""
    runs = (subprocess.run([program], capture_output=True, text=True, check=True).stdout.split() for _ in range(count))
    return [min(times) for times in zip(*(map(int, run) for run in runs), strict=True)]


def main():
    parser = parser_of(__doc__)
    parser.add_argument("--runs", type=int, default=5)
    count = parser.parse_args().runs
    end_in_order()
    with tempfile.TemporaryDirectory() as folder:
        resume, *calls = least_times(built(Path(folder)), count)
    middle = statistics.median(calls)
    longest = max(range(len(calls)), key=calls.__getitem__)
    print(f"resume at 0: {resume / 1000:.1f} ms")
    print(f"{len(calls)} signatures: median {middle / 1000:.2f} ms, longest {calls[longest] / 1000:.2f} ms (number {longest})")
    for number in range(LEAVES - 1, len(calls), LEAVES):
        print(f"number {number}, which ends a bottom tree: {calls[number] / 1000:.2f} ms")
    print(f"the longest is {calls[longest] / middle:.1f} times the median")


if __name__ == "__main__":
    main()
