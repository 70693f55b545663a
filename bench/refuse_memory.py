#!/usr/bin/env python3
"""Runs the built program again and again, and refuses its first allocation, then its second, and so on to the last.

usage: refuse_memory.py TEXT.. [--lanes N] [--minutes N] [--rest]

A text is a schedule, which is replayed, or one that sets up a node, which is served for three turns with nobody else there.
Each run has to end with status 9, the line `out of memory` and nothing or a front of its report, or as it ends with
memory, if the allocation that was refused could be done without. Anything else is told, and the status is then 1.
With `--rest` all allocations after the first that is refused are refused too. As many runs go side by side as there are lanes (1).
If all runs of a text would take more than so many minutes (10), each second allocation is refused, or each third, and so on. It
needs a C compiler."""

import pathlib
import sys
import tempfile

from preload import REFUSER, built, parser_of_refusals, refusing, swept, told
from programs import end_in_order, need, ran


class Runs:
    """The runs over a text."""

    def __init__(self, path, library, asked):
        self.path, self.library, self.asked, self.all = path, library, asked, None
        self.text = path.read_bytes()

    def run(self, number, **environment):
        words = ["replay"]
        if self.text.startswith(b"keys"):
            # Nodes that run side by side have ports of their own.
            words = ["node", "--base", str(24_200 + number % 100 * 50), "--wait", "20", "--turns", "3"]
        return ran(words, self.text, **refusing(self.library, number, self.asked), **environment)

    def whole(self, counted):
        self.all = self.run(0, ASKED=counted)

    def end(self, number):
        got = self.run(number)
        if got == self.all:
            return "did without"
        if got[0] == 9 and got[2] == b"out of memory\n" and self.all[1].startswith(got[1]):
            return "ended with status 9"
        print(f"{self.path}: allocation {number}: status {got[0]}, {len(got[1])} bytes, {got[2][:80]!r}")
        return "ended in another way"


def main():
    parser = parser_of_refusals(__doc__)
    parser.add_argument("texts", nargs="+", type=pathlib.Path)
    asked, bad = parser.parse_args(), 0
    need("abstract_bft")
    end_in_order()
    with tempfile.TemporaryDirectory() as room:
        folder = pathlib.Path(room)
        library = built(folder, REFUSER)
        for path in asked.texts:
            count, step, ends = swept(Runs(path, library, asked), folder, asked)
            bad += ends["ended in another way"]
            print(f"{path}: {told(count, step, ends)}", flush=True)
    sys.exit(1 if bad else 0)


if __name__ == "__main__":
    main()
