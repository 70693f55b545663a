#!/usr/bin/env python3
"""Makes the rows that show whose keys a replay has: rows/hostile/KIND_by_the_seed_of_CLUSTER.sched.

usage: seeded.py

Each row is a run whose head names a seed, into which a message of r3 is injected. The replies and ABORTs are those of bench/twins.py,
which shares no code with the programs. Their tags and signatures have the keys of one seed. Where a row's head names this seed, the
message counts. Where it names another one, it is refused: the same bytes open in one cluster alone."""

import twins
import two_levels as lms
from programs import TOP, parser_of

FOLDER = TOP / "rows" / "hostile"
SEEDS = {"the_cluster": bytes(range(32)), "another_cluster": bytes(range(1, 33))}
BEFORE = [f"deliver {packet}" for packet in range(1, 8)]
SWITCH = [*BEFORE[:3], "timeout c0", "deliver 8", "deliver 9", "deliver 12", "deliver 13"]
# What comes before the message, and the message: in Quorum the answer of r3 is the fourth, and its ABORT the third.
RUNS = {"a_reply": (BEFORE, twins.reply), "an_abort": (SWITCH, twins.abort)}


def schedule(seed, before, message):
    head = ["abstract 4", "f 1", "plan quorum", "clients 1", "service kv", "lms 5", "checkpoint 0", f"seed {seed.hex()}"]
    run = ["faulty r3 1", "run", "invoke c0 put a 1", *before, f"inject c0 {message.hex()}", "end"]
    return "".join(line + "\n" for line in [*head, *run])


def main():
    parser_of(__doc__).parse_args()
    lms.H, lms.TREE_TYPE = twins.HEIGHT, twins.TREE_TYPE
    twins.SEED = SEEDS["the_cluster"]
    for kind, (before, made) in RUNS.items():
        for cluster, seed in SEEDS.items():
            path = FOLDER / f"{kind}_by_the_seed_of_{cluster}.sched"
            path.write_text(schedule(seed, before, made(3, 0)))


if __name__ == "__main__":
    main()
