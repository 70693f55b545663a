#!/usr/bin/env python3
"""Times replays of requests of 16 clients under the plan quorum.

usage: replay.py [REQUESTS..]

The words say how many requests there are, up to 1,024; without words it times 250, 500 and 1,000. Prints, for each, its events, its
seconds, events per second and the peak memory of the program."""

from programs import need, parser_of
from schedules import Schedule, head
from timing import time_replay

CLIENTS = 16
REPLICAS = 4


def schedule(requests):
    """One request after another: an invocation, its packets to the replicas, and their answers."""
    made = Schedule(head("quorum", clients=CLIENTS, lms=5))
    for request in range(requests):
        made.invoke(f"c{request % CLIENTS}", f"put k{request % 100} v{request}")
        made.deliver(REPLICAS, REPLICAS)
    return made.lines


def main():
    parser = parser_of(__doc__)
    parser.add_argument("requests", nargs="*", type=int, default=[250, 500, 1000])
    counts = parser.parse_args().requests
    need("abstract_bft")
    for requests in counts:
        time_replay(f"{requests} requests", schedule(requests), requests)


if __name__ == "__main__":
    main()
