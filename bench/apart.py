#!/usr/bin/env python3
"""Runs clusters whose nodes write their traces apart, and puts these together by traces.py.

usage: apart.py [--plan P] [--clients N] [--commands N] [--length L] [--wait W] [--lms H] [--seed X] [--stop R@N] [--noise] [--folder F]

A cluster of each plan (of all six without `--plan`) runs as cluster.py runs it, with N clients (2), each with so many commands (40), but
each node has a file of its own for its lines, and the keys are those of the seed X (zeros). With `--stop r1@10` replica r1 is killed once
c0 had 10 replies, so its trace ends early. With `--noise` random datagrams go to every port. The traces are then put together as one
schedule. It ends with 1 if a node ends otherwise than cluster.py wants, or if the replay of the schedule doesn't commit exactly what the
nodes did, or says anything but `premise held`. In the folder F are then the traces, the schedule and the report of each plan."""

import argparse
import itertools
import pathlib
import shutil
import sys
import tempfile

import cluster
import traces
from programs import end_in_order, need, parser_of, ran
from schedules import ZEROS
from storms import PLANS


class Apart(cluster.Cluster):
    """A cluster each of whose nodes has a file of its own for its lines."""

    def __init__(self, folder, asked):
        super().__init__(folder, asked)
        self.seed = asked.seed
        self.lines = self.path_of("c0")
        self.lines.touch()

    def path_of(self, party):
        return self.folder / f"{party}.lines"

    def written(self):
        return b"".join(self.path_of(party).read_bytes() for party in self.nodes)

    def replayed(self):
        """The report of the schedule that is put together, and what is told of it."""
        asked = argparse.Namespace(**vars(self.asked), f=1, service="kv", faulty=[])
        text, told = traces.merged(asked, {party: self.path_of(party) for party in self.nodes})
        (self.folder / "run.sched").write_bytes(text)
        status, report, said = ran(["replay"], text)
        (self.folder / "run.report").write_bytes(report)
        return report.decode().splitlines(), f"{said.decode().strip()} ({told}, {text.count(b'deliver ')} deliveries)"


def tried(plan, asked):
    """A cluster of this plan. Yields what is wrong."""
    asked = argparse.Namespace(**{**vars(asked), "plan": plan, "quiet": False})
    with tempfile.TemporaryDirectory() as folder:
        nodes = Apart(folder, asked)
        try:
            _, seconds = cluster.run(nodes, asked)
            running = nodes.running()
        finally:
            statuses, _ = nodes.stop()
        answered = len(nodes.replies())
        print(f"{plan}: {answered} of {asked.commands * asked.clients} commands answered in {seconds:.1f} s", flush=True)
        yield from itertools.chain(cluster.faults_of(asked, running, statuses, answered), cluster.compared(nodes))
        if asked.folder:
            shutil.copytree(folder, pathlib.Path(asked.folder) / plan, dirs_exist_ok=True)


def options():
    parser = parser_of(__doc__)
    parser.add_argument("--plan", choices=PLANS)
    parser.add_argument("--clients", type=int, default=2)
    parser.add_argument("--commands", type=int, default=40)
    parser.add_argument("--length", type=int, default=0)
    parser.add_argument("--wait", type=int, default=200)
    parser.add_argument("--lms", default="10")
    parser.add_argument("--seed", default=ZEROS)
    parser.add_argument("--stop")
    parser.add_argument("--noise", action="store_true")
    parser.add_argument("--folder")
    return parser.parse_args()


def main():
    asked = options()
    asked.base = cluster.free_base()
    need("abstract_bft")
    end_in_order()
    faults = []
    for plan in [asked.plan] if asked.plan else PLANS:
        faults += [f"{plan}: {fault}" for fault in tried(plan, asked)]
    print("\n".join(faults), end="\n" if faults else "")
    sys.exit(1 if faults else 0)


if __name__ == "__main__":
    main()
