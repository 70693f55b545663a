#!/usr/bin/env python3
"""Runs the gate, `rt ci`, and tells what it took, crate by crate.

usage: gate.py [--anew] [--processors N] [--log FILE]

The gate runs in this repository, on the first N processors (all that there are); with --anew it proves all again, whatever was
kept. What it writes goes to FILE (gate.log, in the folder that the script is called in). Each of its checks is a process whose
processor time is read once a second, so that up to a second of each is missed. Prints a line for each crate, the dearest first,
with processor minutes for its proof, its tests and its edits, and what `rt ci` said last; then the sums, and the minutes from start
to end. Of a run that is interrupted it tells what has been until then."""

import collections
import os
import pathlib
import signal
import subprocess
import sys
import time

from programs import TOP, parser_of

PROCESSES = pathlib.Path("/proc")

TICKS = os.sysconf("SC_CLK_TCK")
KINDS = ("proof", "tests", "edits")


def kind_of(words, folder):
    """What a check is for: edits are tried in folders of their own."""
    if "--test" in words:
        return "tests"
    return "proof" if folder.startswith(str(TOP)) else "edits"


class Check:
    """A process of the prover, with its crate and its processor time so far."""

    def __init__(self, process):
        folder = PROCESSES / process
        words = (folder / "cmdline").read_text().split("\0")
        self.crate = words[words.index("--crate-name") + 1]
        self.kind = kind_of(words, os.readlink(folder / "cwd"))
        self.seconds = 0.0


def fields_of(process):
    """A process's name, its parent, and its processor time and start in ticks."""
    text = (PROCESSES / process / "stat").read_text()
    name = text[text.index("(") + 1 : text.rindex(")")]
    rest = text[text.rindex(")") + 2 :].split()
    return name, rest[1], int(rest[11]) + int(rest[12]), int(rest[19])


def is_below(process, above, parents):
    """Whether a process was started by another, or by one that was, and so on."""
    while process not in ("0", above):
        process = parents.get(process, "0")
    return process == above


def look(above, checks):
    """Reads the processor time of each check below a process."""
    found, parents = {}, {}
    for process in filter(str.isdigit, os.listdir(PROCESSES)):
        try:
            name, parents[process], ticks, start = fields_of(process)
        except (FileNotFoundError, ProcessLookupError):
            continue
        if name == "rattle":
            found[process, start] = ticks / TICKS
    for key, seconds in found.items():
        if not is_below(key[0], str(above), parents):
            continue
        try:
            if key not in checks:
                checks[key] = Check(key[0])
            checks[key].seconds = seconds
        except (FileNotFoundError, ProcessLookupError, ValueError):
            pass


def tell(checks, minutes, last):
    taken = collections.defaultdict(lambda: dict.fromkeys(KINDS, 0.0))
    for check in checks.values():
        taken[check.crate][check.kind] += check.seconds / 60
    print(f"{'crate':24}" + "".join(f"{kind:>8}" for kind in KINDS))
    for crate, row in sorted(taken.items(), key=lambda it: -sum(it[1].values())):
        print(f"{crate:24}" + "".join(f"{row[kind]:8.2f}" for kind in KINDS))
    sums = [sum(row[kind] for row in taken.values()) for kind in KINDS]
    print(f"{'processor minutes':24}" + "".join(f"{it:8.1f}" for it in sums) + f"{sum(sums):10.1f} in all")
    print(f"{minutes:.1f} minutes from start to end; {last}")


def main():
    parser = parser_of(__doc__)
    parser.add_argument("--anew", action="store_true")
    parser.add_argument("--processors", type=int)
    parser.add_argument("--log", type=pathlib.Path, default="gate.log")
    asked = parser.parse_args()
    if asked.processors:
        os.sched_setaffinity(0, sorted(os.sched_getaffinity(0))[: asked.processors])
    words = ["rt", "ci"] + ["--anew"] * asked.anew
    checks, begin = {}, time.monotonic()
    with asked.log.open("w") as log:
        gate = subprocess.Popen(words, cwd=TOP, stdout=log, stderr=subprocess.STDOUT)
        try:
            while gate.poll() is None:
                look(gate.pid, checks)
                time.sleep(1)
        except KeyboardInterrupt:
            gate.send_signal(signal.SIGINT)
            gate.wait()
    said = asked.log.read_text().splitlines() or ["it said nothing"]
    tell(checks, (time.monotonic() - begin) / 60, said[-1])
    sys.exit(gate.returncode)


if __name__ == "__main__":
    main()
