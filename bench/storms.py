#!/usr/bin/env python3
"""Runs storms of all seven plans, and looks at each summary.

usage: storms.py [--seconds S] [--events E] [--seed N] [--once]

Seed by seed from N on (1), until S seconds are over (an hour), each plan has a storm of E events (5,000) with one faulty
replica allowed for, and one with two; the number of clients goes by the seed. Each storm is run twice, but for `--once`. The two
summaries have to be the same bytes, the status 0, the first line the number of the events, and the last `premise held`. What is
otherwise is printed, and ends the script with 1. At the end it prints how many storms and events that were."""

import itertools
import sys
import time

from programs import need, parser_of, ran

PLANS = ("quorum", "zlight", "chain", "zcert", "backup", "azyzzyva", "aliph")


def parser_of_storms(doc):
    """A parser of the words by which storms are drawn."""
    parser = parser_of(doc)
    parser.add_argument("--seconds", type=float, default=3600.0)
    parser.add_argument("--events", type=int, default=5000)
    parser.add_argument("--seed", type=int, default=1)
    return parser


def drawn(asked):
    """Yields, seed by seed until the seconds are over, the seed and its storms: the plan and the words of each."""
    ends = time.monotonic() + asked.seconds
    for seed in itertools.count(asked.seed):
        if time.monotonic() >= ends:
            return
        shared = [f"--clients={1 + seed % 16}", f"--seed={seed}", f"--events={asked.events}"]
        yield seed, [(plan, [f"--plan={plan}", f"--f={f}", *shared]) for plan in PLANS for f in (1, 2)]


def is_good(answer, events):
    status, out, said = answer
    lines = out.splitlines()
    return status == 0 and not said and lines[0] == b"events %d" % events and lines[-1] == b"premise held"


def main():
    parser = parser_of_storms(__doc__)
    parser.add_argument("--once", action="store_true")
    asked = parser.parse_args()
    need("abstract_bft")
    count, bad, last = 0, 0, None
    for last, storms in drawn(asked):
        for _, words in storms:
            first = ran(["storm", *words])
            count += 1
            if not is_good(first, asked.events) or (not asked.once and ran(["storm", *words]) != first):
                bad += 1
                print(" ".join(words), first, flush=True)
    seeds = f"seeds {asked.seed} to {last}"
    print(f"{count} storms of {seeds}, with {count * asked.events} events: {bad} of them not as they have to be")
    sys.exit(1 if bad or not count else 0)


if __name__ == "__main__":
    main()
