#!/usr/bin/env python3
"""Lets a cluster of nodes with checkpoints take many commands, and tells how time and memory go on over its life.

usage: life.py [--plan P] [--checkpoint C] [--commands N] [--length L] [--wait W] [--base B] [--lms H] [--every E]

Four replicas of the plan P (quorum), with a checkpoint after every C requests (64), and one client with N commands (60,000) of L bytes or
more (0) run over UDP on this machine, without traces. After every E answered commands (5,000) it prints how many there are, how many a
second there were since the line before, and the resident memory of r0 and of the client. The client's text, which it reads whole, has all
its commands. A log shows what is trimmed no more, but a replica keeps it in memory (docs/DECISIONS.md).

It ends with 1 if not every command is answered, or a node ends otherwise than it has to (`cluster.py`)."""

import re
import sys
import tempfile
import time

import cluster
from programs import end_in_order, need, parser_of


def kilobytes_of(process):
    """The resident memory of a process; none if it has ended."""
    try:
        with open(f"/proc/{process.pid}/status") as status:
            found = re.search(r"VmRSS:\s+(\d+) kB", status.read())
    except FileNotFoundError:
        return 0
    return int(found[1]) if found else 0


class Life:
    """How many commands are answered, and when each milestone was reached."""

    def __init__(self, nodes, lines, every):
        self.nodes, self.lines, self.every = nodes, lines, every
        self.answered, self.told, self.at = 0, 0, time.monotonic()

    def look(self, least=None):
        """Reads what is new, and prints a line if so many more are answered."""
        self.answered += self.lines.read().count(b"reply ")
        if self.answered - self.told < (least or self.every):
            return
        now = time.monotonic()
        rate = (self.answered - self.told) / (now - self.at)
        memory = [kilobytes_of(self.nodes[party]) for party in ("r0", "c0")]
        print(f"{self.answered:7,} {rate:12,.0f} {memory[0]:12,} {memory[1]:12,}", flush=True)
        self.told, self.at = self.answered, now


def options():
    parser = parser_of(__doc__)
    parser.add_argument("--plan", default="quorum", choices=("quorum", "zlight", "chain"))
    cluster.add_options(parser, commands=60_000, lms="5", checkpoint=64)
    parser.add_argument("--every", type=int, default=5_000)
    parser.set_defaults(clients=1, quiet=True, stop=None, late=None, noise=False)
    return parser.parse_args()


def lived(nodes, asked):
    """Starts the nodes, and waits until the client has ended, which it tells of meanwhile."""
    nodes.set_up("c0", [cluster.command_of(asked, 0, number) for number in range(asked.commands)])
    for replica in (f"r{r}" for r in range(cluster.REPLICAS)):
        nodes.set_up(replica)
        nodes.start(replica, 1_000_000_000, asked.wait)
    nodes.wait_for_ports(60)
    with nodes.lines.open("rb") as lines:
        nodes.start("c0", 100 * asked.commands + 1000, asked.wait)
        life = Life(nodes.nodes, lines, asked.every)
        nodes.wait_for(["c0"], 60 + asked.commands, life.look)
        life.look(1)


def main():
    asked = options()
    asked.base = asked.base or cluster.free_base()
    need("abstract_bft")
    end_in_order()
    print(f"{'commands':>7} {'a second':>12} {'kB of r0':>12} {'kB of c0':>12}", flush=True)
    with tempfile.TemporaryDirectory() as folder:
        nodes = cluster.Cluster(folder, asked)
        try:
            lived(nodes, asked)
            running = nodes.running()
        finally:
            statuses, _ = nodes.stop()
        faults = list(cluster.faults_of(asked, running, statuses, len(nodes.replies())))
    print("\n".join(faults), end="\n" if faults else "")
    sys.exit(1 if faults else 0)


if __name__ == "__main__":
    main()
