#!/usr/bin/env python3
"""Runs each built test again and again, and refuses its first allocation, then its second, and so on to the last.

usage: refuse_memory_in_tests.py [NAME..] [--lanes N] [--minutes N] [--rest]

Tests are built by `rt test NAME`; those of the named crates are run, or of all that are built. Each run has to pass, if the
allocation could be done without, or to fail by its result or an assertion. Of those that fail it is counted how many say that
memory was refused: a test whose helpers answer whether something is so doesn't say why it isn't. Anything else, such as another
signal or a run that takes more than a minute, is told, and the status is then 1. With `--rest` all allocations after the first that
is refused are refused too. As many runs go side by side as there are lanes (1). If all runs of a test would take more than so many
minutes (10), each second allocation is refused, or each third, and so on. It needs a C compiler."""

import collections
import pathlib
import re
import signal
import subprocess
import sys
import tempfile

from preload import REFUSER, built, parser_of_refusals, refusing, swept, told
from programs import TOP, end_in_order, ran

# The status of a test whose result is an error; an assertion that fails ends it by SIGABRT.
FAILED = 101

# How a test says that memory was refused.
REFUSAL = re.compile(rb"OutOfMemory|AllocError|AllocFailed|out of memory|Refused\(Memory\)|NoMemory")


def built_tests():
    """The programs of built tests, by their crates."""
    return {path.name.removesuffix("_tests"): path for path in sorted(TOP.glob("crates/*/out/*_tests"))}


def tests_of(program):
    """The names of its tests."""
    said = subprocess.run([program, "--list"], capture_output=True, check=True).stdout.decode()
    return re.findall(r"^(\S+): test$", said, re.MULTILINE)


class Runs:
    """The runs of a test."""

    def __init__(self, program, test, library, asked):
        self.program, self.test, self.library, self.asked = program, test, library, asked

    def run(self, number, **environment):
        environment |= refusing(self.library, number, self.asked)
        try:
            status, out, said = ran([self.test], program=self.program, seconds=60, **environment)
        except subprocess.TimeoutExpired:
            return None, b""
        return status, out + said

    def whole(self, counted):
        status, said = self.run(0, ASKED=counted)
        if status != 0:
            sys.exit(f"{self.program} {self.test}: status {status} with all memory: {said[-200:]!r}")

    def end(self, number):
        status, said = self.run(number)
        if status == 0:
            return "did without"
        if status in (FAILED, -signal.SIGABRT):
            return "said that memory was refused" if REFUSAL.search(said) else "failed"
        print(f"{self.test}: allocation {number}: status {status}: {said[-200:]!r}")
        return "ended in another way"


def main():
    found = built_tests()
    parser = parser_of_refusals(__doc__)
    parser.add_argument("names", nargs="*")
    asked = parser.parse_args()
    missing = sorted({*asked.names} - {*found})
    if missing or not found:
        sys.exit(f"tests that aren't built: {', '.join(missing) or 'all'}; `rt test NAME` builds them")
    end_in_order()
    count_of_all, sums = 0, collections.Counter()
    with tempfile.TemporaryDirectory() as room:
        folder = pathlib.Path(room)
        library = built(folder, REFUSER)
        for name in asked.names or found:
            for test in tests_of(found[name]):
                count, step, ends = swept(Runs(found[name], test, library, asked), folder, asked)
                count_of_all += count
                sums += ends
                print(f"{name} {test}: {told(count, step, ends)}", flush=True)
    print(f"in all {told(count_of_all, 1, sums)}")
    sys.exit(1 if sums["ended in another way"] else 0)


if __name__ == "__main__":
    main()
