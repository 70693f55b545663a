#!/usr/bin/env python3
"""Kills the nodes of clusters with journals at random moments, starts them again, and looks at what all of them did.

usage: kill.py [--plan P] [--kills N] [--seed S] [--clients N] [--commands N] [--wait W] [--pause T] [--seconds S] [--lms H] [--timed N]
               [--folder F] [--torn N]

Without `--plan` all seven plans are tried. Of each plan one cluster after another runs, until N nodes (200) were killed by SIGKILL. A
cluster has four replicas and N clients (2), each with so many commands (40), all with journals and traces. Nodes are killed after random
pauses, T seconds in the middle (0.5): mostly one, sometimes two, sometimes all at once, also while they read their journals. They are
started again after a further pause. S of `--seed` (1) gives the moments and who is killed, as far as the machine goes along. Once the
clients have ended, or after S seconds (120), or once the journals have 24 MiB, all is stopped. More than that may be more than `replay`
takes: a schedule spells each byte with two digits. On a busy machine a Backup whose wait is too short changes its view again and again, and
journals grow by a megabyte a second.

What the journals have is then put together as one schedule: each event at the first line that its party wrote of it. That is replayed.
It ends with 1 if the replay says anything but `premise held`; if a process writes other events again than its journal has; if a process
of a client writes other replies than the first ones that the replay commits, in their order and each once; if a client's commands aren't
its first ones, each once; if a node ends by itself otherwise than a client whose commands are answered; or if a cluster answers nothing.
Then it tells where it left a copy of the cluster's files. Told too is how many clusters were stopped for the size of their journals.

The journals of a further cluster, of one client with N commands (4) and trees of height 5, are torn: that of each party is cut at each byte
of its last two entries, and opened. Its node has to write the lines of the entries that are left, in an order in which nothing more
than replies, a command, a timeout and the line of the end are behind or between them, replies as the client had them before, and to leave
these entries in the file.

Then each plan is timed: N commands (200) of one client, without traces, with journals and without. A replica and the client have journals
of so many bytes a command. Journals lie in a folder of F, by default where temporary files do: where that is no disk, a sync costs
nothing. The last cluster has a replica whose journal is in a file system of 32 KiB, if one can be mounted: it ends with 10, and goes on
with a copy of its journal elsewhere."""

import argparse
import pathlib
import random
import shutil
import subprocess
import sys
import tempfile
import time

import cluster
import journals
from journals import Kept, faults_of
from programs import end_in_order, need, parser_of, ran
from storms import PLANS

REPLICAS = [f"r{r}" for r in range(cluster.REPLICAS)]
# How often it is one node that is killed, two, or all.
SHARES = (16, 3, 1)
# So many bytes of journals are a schedule that `replay` takes.
MOST_BYTES = 24 << 20
# How long a wait for clients is before the journals are looked at again.
LOOK = 1
# So many commands fill a journal in a small file system.
FULL = 300
SMALL = "32k"
DISK_FAULT = 10


def clients_of(asked):
    return [f"c{c}" for c in range(asked.clients)]


def begin(nodes, asked):
    """Starts the replicas and then, once they listen, the clients with their commands."""
    for replica in REPLICAS:
        nodes.set_up(replica)
        nodes.begin(replica)
    for c, client in enumerate(clients_of(asked)):
        nodes.set_up(client, [b"put k%d_%d v%d" % (c, n % 50, n) for n in range(asked.commands)])
    nodes.wait_for_ports(60)
    for client in clients_of(asked):
        nodes.begin(client)


class Killer:
    """Kills nodes of a cluster at random moments, at most so many, and starts them again."""

    def __init__(self, nodes, asked, draws, most):
        self.nodes, self.asked, self.draws, self.most = nodes, asked, draws, most
        self.end = time.monotonic() + asked.seconds

    def clients_left(self):
        return [party for party in self.nodes.running() if party.startswith("c")]

    def pause(self):
        time.sleep(self.draws.uniform(0, 2 * self.asked.pause))

    def is_full(self):
        return sum(path.stat().st_size for path in self.nodes.journals.iterdir()) > MOST_BYTES

    def goes_on(self):
        return self.clients_left() and time.monotonic() < self.end and not self.is_full()

    def victims(self):
        running = self.nodes.running()
        count = self.draws.choices((1, 2, len(running)), SHARES)[0]
        return self.draws.sample(running, min(count, len(running), self.most - self.nodes.kills))

    def kill(self):
        """Kills until the clients have ended, or enough were killed; then waits for the clients."""
        while self.nodes.kills < self.most and self.goes_on():
            self.pause()
            killed = self.nodes.kill(self.victims())
            if self.draws.random() < 0.5:
                self.pause()
            for party in killed:
                self.nodes.begin(party)
        while self.goes_on():
            self.nodes.wait_for(self.clients_left(), min(LOOK, max(0, self.end - time.monotonic())))


def end_faults(statuses, running):
    """What is wrong with how nodes ended that weren't stopped."""
    for party, status in statuses.items():
        if party not in running and (party.startswith("r") or status != cluster.ANSWERED):
            yield f"{party} ended by itself, with status {status}"


def told_of(plan, asked, **others):
    """What a cluster of this plan is told."""
    return argparse.Namespace(**{**vars(asked), "plan": plan, "quiet": False, **others})


def killed_once(plan, asked, draws, most):
    """A cluster whose nodes are killed: how many were, whether its journals grew too long, how many commands were answered, and what is
    wrong."""
    asked = told_of(plan, asked)
    with tempfile.TemporaryDirectory(dir=asked.folder) as folder:
        nodes = Kept(folder, asked)
        try:
            begin(nodes, asked)
            killer = Killer(nodes, asked, draws, most)
            killer.kill()
            running, is_full = nodes.running(), killer.is_full()
        finally:
            statuses, said = nodes.stop()
        faults, answered = faults_of(nodes)
        faults += end_faults(statuses, running)
        faults += [f"{party} said: {text.strip()}" for party, text in said.items() if text]
        if not answered:
            faults.append("no command was answered")
        if faults:
            faults.append(f"its texts, lines, journals and schedule are in {copied(folder, asked)}")
        return nodes.kills, is_full, answered, faults


def copied(folder, asked):
    """Where a copy of this folder is."""
    copy = tempfile.mkdtemp(prefix="kill-", dir=asked.folder)
    shutil.copytree(folder, copy, dirs_exist_ok=True)
    return copy


def killed(plan, asked):
    """Clusters of this plan, until enough nodes were killed. Yields what is wrong."""
    draws = random.Random(f"{plan} {asked.seed}")
    kills = answered = clusters = full = 0
    while kills < asked.kills:
        more, is_full, replies, faults = killed_once(plan, asked, draws, asked.kills - kills)
        kills, answered, clusters, full = kills + more, answered + replies, clusters + 1, full + is_full
        yield from (f"{plan}, cluster {clusters}: {fault}" for fault in faults)
        if faults:
            break
    wanted = clusters * asked.clients * asked.commands
    stopped = f", {full} of them stopped for the size of their journals" if full else ""
    print(f"{plan}: {kills} kills in {clusters} clusters{stopped}, {answered} of {wanted} commands answered", flush=True)


def reopened(folder, asked, party, text, data):
    """What a node of a party writes that opens these bytes as its journal and has one short turn, and the bytes that it leaves."""
    (folder / party).write_bytes(data)
    words = ["node", "--base", str(asked.base), "--wait", "1", "--turns", "1", "--trace", "--journal", party]
    status, out, said = ran(words, text, folder=folder)
    return status, out.splitlines(), said, (folder / party).read_bytes()


def torn_faults(nodes, party, replies, folder):
    """What is wrong with a party's journal that is torn: the first fault, and how many ways were tried."""
    text, bodies = (nodes.folder / party).read_bytes(), nodes.bodies(party)
    for count, data in enumerate(journals.torn(bodies), 1):
        left = journals.read(data)[0]
        status, lines, said, kept = reopened(folder, nodes.asked, party, text, data)
        events = [line for line in lines if not line.startswith((b"reply ", b"end "))]
        wanted = [journals.line_of(party, body) for body in left[1:]]
        more = [journals.line_of(party, body) for body in journals.read(kept)[0][1:]]
        told = [line for line in lines if line.startswith(b"reply ")]
        is_right = status in (cluster.ANSWERED, cluster.SPENT) and events[: len(wanted)] == wanted and more == events
        if not (is_right and kept.startswith(journals.spelled(left)[:-1]) and told == replies[: len(told)]):
            return count, f"the journal of {party}, cut to {len(data)} bytes: status {status}, {len(events)} events, {said!r}"
    return len([*journals.torn(bodies)]), None


def torn(plan, asked):
    """A cluster whose journals are torn. Yields what is wrong."""
    asked = told_of(plan, asked, clients=1, commands=asked.torn, lms="5", wait=2000)
    with tempfile.TemporaryDirectory(dir=asked.folder) as folder, tempfile.TemporaryDirectory(dir=asked.folder) as other:
        nodes = Kept(folder, asked)
        try:
            begin(nodes, asked)
            nodes.wait_for(["c0"], asked.seconds)
        finally:
            nodes.stop()
        replies, ways = nodes.lines_of(b"reply"), 0
        for party in (*REPLICAS, "c0"):
            tried, fault = torn_faults(nodes, party, replies, pathlib.Path(other))
            ways += tried
            if fault:
                yield f"{plan}: {fault}"
        print(f"{plan}: {len(replies)} commands answered, then journals torn in {ways} ways", flush=True)


def timed(plan, asked, with_journals):
    """How many commands a second one client has answered, and the bytes of journals a command."""
    asked = told_of(plan, asked, clients=1, commands=asked.timed, wait=1000, length=0, quiet=True, stop=None, noise=False)
    with tempfile.TemporaryDirectory(dir=asked.folder) as folder:
        nodes = cluster.Cluster(folder, asked)
        if with_journals:
            nodes.journals = nodes.folder / "journals"
            nodes.journals.mkdir()
        try:
            _, seconds = cluster.run(nodes, asked)
        finally:
            nodes.stop()
        answered = len(nodes.replies())
        sizes = [(nodes.journals / party).stat().st_size / max(1, answered) for party in ("r0", "c0") if with_journals]
    return answered, answered / seconds, sizes


def tell_times(plan, asked):
    """Tells the times of a plan, and yields what is wrong."""
    for with_journals in (False, True):
        answered, rate, sizes = timed(plan, asked, with_journals)
        told = "".join(f", {size:.0f} bytes a command in the journal of {party}" for party, size in zip(("r0", "c0"), sizes))
        print(f"{plan}: {rate:.0f} commands a second {'with' if with_journals else 'without'} journals{told}", flush=True)
        if answered < asked.timed:
            yield f"{plan}: {answered} of {asked.timed} commands were answered while it was timed"


def mounted(folder):
    """Whether a small file system could be mounted here."""
    done = subprocess.run(["mount", "-t", "tmpfs", "-o", f"size={SMALL}", "tmpfs", folder], capture_output=True)
    return done.returncode == 0


def fill(nodes, small):
    """Runs a cluster whose last replica's journal is in a small folder, until it ends. The replica then goes on with a copy."""
    victim = REPLICAS[-1]
    nodes.elsewhere[victim] = small
    begin(nodes, nodes.asked)
    nodes.wait_for([victim], nodes.asked.seconds)
    if nodes.nodes[victim].poll() is None:
        yield f"{victim} doesn't end, and its disk is small"
        return
    said = nodes.nodes[victim].communicate()[1]
    if (nodes.nodes[victim].returncode, said) != (DISK_FAULT, b"disk fault\n"):
        yield f"{victim} ended with {nodes.nodes[victim].returncode}, where its disk was full, and said {said}"
    shutil.copy(small / victim, nodes.journals / victim)
    del nodes.elsewhere[victim]
    nodes.begin(victim)
    nodes.wait_for(["c0"], nodes.asked.seconds)


def full(asked):
    """A cluster one of whose disks is full. Yields what is wrong."""
    asked = told_of("quorum", asked, clients=1, commands=FULL)
    with tempfile.TemporaryDirectory(dir=asked.folder) as folder:
        small = pathlib.Path(folder) / "small"
        small.mkdir()
        if not mounted(small):
            print("a full disk: no small file system can be mounted here")
            return
        nodes = Kept(folder, asked)
        try:
            yield from fill(nodes, small)
            running = nodes.running()
        finally:
            statuses, _ = nodes.stop()
            subprocess.run(["umount", small], check=True)
        faults, answered = faults_of(nodes)
        print(f"a full disk: {answered} of {FULL} commands answered")
        yield from (f"a full disk: {fault}" for fault in (*faults, *end_faults(statuses, running)))


def options():
    parser = parser_of(__doc__)
    parser.add_argument("--plan", choices=PLANS)
    parser.add_argument("--kills", type=int, default=200)
    parser.add_argument("--seed", type=int, default=1)
    parser.add_argument("--clients", type=int, default=2)
    parser.add_argument("--commands", type=int, default=40)
    parser.add_argument("--wait", type=int, default=200)
    parser.add_argument("--pause", type=float, default=0.5)
    parser.add_argument("--seconds", type=float, default=120)
    parser.add_argument("--lms", default="10")
    parser.add_argument("--timed", type=int, default=200)
    parser.add_argument("--folder")
    parser.add_argument("--torn", type=int, default=4)
    return parser.parse_args()


def main():
    asked = options()
    need("abstract_bft")
    end_in_order()
    asked.base = cluster.free_base()
    faults = []
    for plan in [asked.plan] if asked.plan else PLANS:
        torn_ones = torn(plan, asked) if asked.torn else ()
        for fault in (*killed(plan, asked), *torn_ones, *(tell_times(plan, asked) if asked.timed else ())):
            print(fault, flush=True)
            faults.append(fault)
    for fault in full(asked):
        print(fault, flush=True)
        faults.append(fault)
    sys.exit(1 if faults else 0)


if __name__ == "__main__":
    main()
