#!/usr/bin/env python3
"""Times replays of Backup alone: 16 clients invoke at once, again and again, and every packet is delivered in its order.

usage: backup.py [--lms H] [COMMITS..]

A Backup takes at most 16 requests, so each round of the 16 clients needs an instance of its own: the replicas have stopped,
answer with their ABORTs, and the clients carry their requests into the next instance. The words say how many commits there are at
least; without words it times 200, 400 and 800. Prints, for each, the events, the seconds, events per second and the peak memory of the
program. With trees of height 10, as without `--lms`, a replica can sign 1,024 times, once for each slot and once for each ABORT, which is
enough for some 900. With `--lms 20` it signs in two levels and goes on, until the bytes of
all packets reach the limit of a replay.

How many packets a round sends is learned from the program first, by seven replays."""

import re
import sys

from programs import need, parser_of, ran
from schedules import Schedule, deliveries, head, text_of
from timing import time_replay

CLIENTS = 16
# So many packets a round doesn't send.
MOST = 20_000


def drain(made):
    """Delivers all that is sent, until nothing more is. Returns how many packets that were: the first line too many is refused."""
    lines = [*made.lines, *deliveries(range(made.delivered + 1, made.delivered + MOST + 1))]
    _, _, said = ran(["replay"], text_of(lines))
    refused = re.fullmatch(rb"line (\d+): no packet\n", said)
    if not refused:
        sys.exit(f"more than {MOST} packets, or {said.decode()}")
    packets = int(refused[1]) - 1 - len(made.lines)
    made.deliver(packets)
    return packets


def invoke_at_once(made, clients=CLIENTS):
    """That many clients invoke."""
    for client in range(clients):
        made.invoke(f"c{client}", f"put k{client} v{made.requests + 1}")


def begun(lms):
    """The first four instances take 1, 2, 4 and 8 requests, so that the first round of 16 needs a fifth, whose other 15 places
    are filled by a second round. From then on each round is an instance."""
    made = Schedule(head("backup", clients=CLIENTS, lms=lms))
    invoke_at_once(made)
    drain(made)
    for _ in range(4):
        # Clients whose request no replica took ask again.
        made.time_out(f"c{client}" for client in range(CLIENTS))
        drain(made)
    invoke_at_once(made, 15)
    drain(made)
    return made


def main():
    parser = parser_of(__doc__)
    parser.add_argument("commits", nargs="*", type=int, default=[200, 400, 800])
    parser.add_argument("--lms", type=int, choices=(5, 10, 20), default=10)
    asked = parser.parse_args()
    need("abstract_bft")
    made = begun(asked.lms)
    invoke_at_once(made)
    packets = drain(made)
    for commits in sorted(asked.commits):
        while made.requests < commits:
            invoke_at_once(made)
            made.deliver(packets)
        time_replay(f"{made.requests} commits", made.lines, made.requests)


if __name__ == "__main__":
    main()
