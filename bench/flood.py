#!/usr/bin/env python3
"""Holds clusters of nodes under junk datagrams.

usage: flood.py [--plan P] [--rate N] [--commands N] [--wait W] [--base B] [--lms H]

A cluster of each plan (of all seven without `--plan`) runs twice: without junk, and while N datagrams a second (20,000) go to its nodes, to
one port after the other. A quarter of them are random bytes. A quarter are pieces of messages of 512 pieces that never come whole, in the
name of each party. A quarter are one right request of a client whose keys the sender has, which the replicas have answered long ago. A
quarter are messages with right tags of replica r3, whose keys the sender has too, of an instance that is far away. The other client has so
many commands (200), one after the other.

Of each run it tells the commands a second and the most memory of a replica. It ends with 1 if a command isn't answered, or otherwise than
without junk, if a replica ends by itself, or if one has more memory than pieces may take (FORMATS.md, "What a flood can hold")."""

import argparse
import itertools
import multiprocessing
import random
import re
import socket
import sys
import tempfile
import time
from pathlib import Path

import cluster
from programs import end_in_order, need, parser_of
from storms import PLANS

REPLICAS = [f"r{r}" for r in range(cluster.REPLICAS)]
CLIENT, FLOODER, FAULTY = "c0", "c1", "r3"
# An instance in which nobody is, and how much junk comes before the first command.
FAR, FIRST = 4_000_000_000, 100
TURNS = 1_000_000_000
# Bodies of pieces, their tables, and what a node has without them.
MOST_MEMORY = 771_751_936 + 184 * 512 * 64 + (256 << 20)
# The longest body of a piece, and the most pieces of a message.
BODY, COUNT = 8192, 512
SENDERS = [(0, r) for r in range(7)] + [(1, c) for c in range(16)]


def ports_of(base):
    return [*range(base, base + cluster.REPLICAS), base + 100]


def piece(draws, number):
    """A piece of a message of many, in somebody's name."""
    kind, party = draws.choice(SENDERS)
    head = b"\1" + bytes([kind]) + party.to_bytes(2, "big") + number.to_bytes(8, "big")
    return head + draws.randrange(COUNT - 1).to_bytes(2, "big") + COUNT.to_bytes(2, "big") + b"\xa5" * BODY


def of_faulty(receiver, number):
    """A message of r3 with a right tag for this party: of a client a RESP, and of a replica a COMMIT of a Backup."""
    head = cluster.bytes_of(FAULTY) + FAR.to_bytes(4, "big")
    if receiver == CLIENT:
        code, content = b"\3", b"\3" + head + bytes(2) + (1).to_bytes(8, "big") + (1).to_bytes(2, "big") + bytes(32) + b"\2ok"
    else:
        code, content = b"\x0a", b"\x09" + head + (1).to_bytes(4, "big") + b"\1" + bytes(32)
    message = code + content + cluster.tag_of(FAULTY, receiver, content)
    return b"\1" + cluster.bytes_of(FAULTY) + number.to_bytes(8, "big") + b"\0\0\0\1" + message


def junk(draws, request, receivers):
    """Datagrams without end, each with its receiver: random bytes, a piece, the request, a message of a faulty replica."""
    for number in itertools.count(1):
        for receiver in receivers:
            yield receiver, draws.randbytes(draws.choice([0, 1, 16, 17, 100, 8208]))
            yield receiver, piece(draws, number)
            yield receiver, request
            yield receiver, of_faulty(receiver, number)


def flood(base, rate, request, sent):
    """Sends so many datagrams a second, and counts them."""
    ports = dict(zip([*REPLICAS, CLIENT], ports_of(base)))
    datagrams, begin = junk(random.Random(7), request, [party for party in ports if party != FAULTY]), time.monotonic()
    with socket.socket(socket.AF_INET, socket.SOCK_DGRAM) as sender:
        while True:
            for number in range(sent.value, int((time.monotonic() - begin) * rate)):
                receiver, datagram = next(datagrams)
                sender.sendto(datagram, (cluster.HOST, ports[receiver]))
                sent.value = number + 1
            time.sleep(0.001)


def request_of(nodes):
    """The datagram in which a client asks replica r0 for its first command, before the replicas are there."""
    nodes.set_up(FLOODER, [b"put junk 1"])
    with cluster.bound(nodes.asked.base) as listener:
        listener.settimeout(60)
        nodes.start(FLOODER, 1, 100)
        request = listener.recv(65536)
    nodes.nodes.pop(FLOODER).wait()
    return request


def most_memory(nodes):
    """The most bytes that one of the replicas had."""
    texts = [Path(f"/proc/{nodes.nodes[replica].pid}/status").read_text() for replica in REPLICAS if nodes.nodes[replica].poll() is None]
    return max((int(re.search(r"VmHWM:\s+(\d+) kB", text)[1]) * 1024 for text in texts), default=0)


class Flooded:
    """A cluster with one client, under so many datagrams a second."""

    def __init__(self, plan, asked, rate):
        self.asked = argparse.Namespace(**vars(asked), clients=2, quiet=True)
        self.asked.plan, self.rate, self.sent = plan, rate, multiprocessing.Value("Q", 0, lock=False)

    def run(self):
        """Runs it, and yields what is wrong."""
        with tempfile.TemporaryDirectory() as folder:
            nodes = cluster.Cluster(folder, self.asked)
            try:
                self.serve(nodes)
            finally:
                running = nodes.running()
                statuses, _ = nodes.stop()
            self.replies = [reply for _, _, _, reply in nodes.replies()]
        for party, status in statuses.items():
            if party.startswith("r") and party not in running:
                yield f"{party} ended by itself, with status {status}"
        if len(self.replies) < self.asked.commands:
            yield f"{len(self.replies)} of {self.asked.commands} commands were answered"
        if self.memory > MOST_MEMORY:
            yield f"a replica had {self.memory} bytes"

    def serve(self, nodes):
        request = request_of(nodes)
        for replica in REPLICAS:
            nodes.set_up(replica)
            nodes.start(replica, TURNS, self.asked.wait)
        nodes.set_up(CLIENT, [b"put k%d v%d" % (n % 50, n) for n in range(self.asked.commands)])
        nodes.wait_for_ports(60)
        sender = multiprocessing.Process(target=flood, args=(self.asked.base, self.rate, request, self.sent), daemon=True)
        if self.rate:
            sender.start()
        while self.rate and self.sent.value < FIRST:
            time.sleep(0.001)
        before, begin = self.sent.value, time.monotonic()
        nodes.start(CLIENT, TURNS, self.asked.wait)
        self.seconds = nodes.wait_for([CLIENT], 60 + self.asked.commands) - begin
        self.junk = (self.sent.value - before) / self.seconds
        self.dropped = sum(nodes.dropped().values())
        self.memory = most_memory(nodes)
        if self.rate:
            sender.kill()
            sender.join()


def tried(plan, asked):
    """A cluster without junk, and one with it. Yields what is wrong."""
    first = None
    for rate in (0, asked.rate):
        run = Flooded(plan, asked, rate)
        for fault in run.run():
            yield f"{plan}, {rate} datagrams a second: {fault}"
        told = f"{len(run.replies) / run.seconds:.0f} commands a second, {run.memory / 2**20:.0f} MiB at most"
        print(f"{plan}, {run.junk:.0f} junk datagrams a second, {run.dropped} datagrams dropped: {told}", flush=True)
        first = first or run.replies
        if run.replies != first:
            yield f"{plan}: replies differ from those without junk"


def options():
    parser = parser_of(__doc__)
    parser.add_argument("--plan", choices=PLANS)
    parser.add_argument("--rate", type=int, default=20_000)
    parser.add_argument("--commands", type=int, default=200)
    parser.add_argument("--wait", type=int, default=1000)
    parser.add_argument("--base", type=int)
    parser.add_argument("--lms", default="10")
    return parser.parse_args()


def main():
    asked = options()
    plans = [asked.plan] if asked.plan else PLANS
    del asked.plan
    asked.base = asked.base or cluster.free_base()
    need("abstract_bft")
    end_in_order()
    faults = [fault for plan in plans for fault in tried(plan, asked)]
    print("\n".join(faults), end="\n" if faults else "")
    sys.exit(1 if faults else 0)


if __name__ == "__main__":
    main()
