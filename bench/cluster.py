#!/usr/bin/env python3
"""Runs a cluster of nodes over UDP on this machine, and replays what they did, or times them.

usage: cluster.py [--plan P] [--clients N] [--commands N] [--length L] [--wait W] [--base B] [--lms H] [--checkpoint C] [--stop R@N]
                  [--late R@M] [--noise] [--quiet]

Four replicas of the plan P (quorum) are started. When all of them listen, so are N clients (1), each with so many commands (1,000) of
L bytes or more (0; 128 at most), one after the other. A cluster takes 1,024 requests in its life, or 65,535 if a checkpoint is due after
every C of them. Ports begin at B (where they are free).
With `--stop r1@100` replica r1 is killed once 100 commands are answered (`r1@0`: at once). With `--late r1@20` it runs for a
millisecond and sleeps for 20, again and again, once a command is answered. With `--noise` random datagrams go to every port meanwhile.
It tells how many datagrams the system dropped at each port, since they came faster than they were taken.

All nodes append their traces to one file, each a line before it sends what comes of it, so the lines of the file are a schedule in
which nothing is taken before it was sent. That is replayed. `--quiet` leaves out traces and the replay: so nodes are timed. The time is
that of the clients, from when all replicas listen to the end of the last client's process.

It ends with 1 if no command is answered, or not every command without `--stop` and `--noise`; if a client hangs or ends with a status
other than 0 and 8; if a replica ends that isn't stopped, or one isn't stopped that has to be; if two commits of one number differ; or
if the replay doesn't commit exactly what the nodes did, or says anything but `premise held`."""

import contextlib
import functools
import hashlib
import hmac
import itertools
import os
import pathlib
import random
import selectors
import signal
import socket
import subprocess
import sys
import tempfile
import threading
import time

from programs import PROGRAM, end_in_order, need, parser_of, ran
from schedules import head

SEED = bytes(range(32)).hex()
HOST = "127.0.0.1"
REPLICAS = 4
SECONDS = 300
BASES = itertools.count(21_000, 200)
# What holds the bases that were given.
KEPT = []
# How a client ends whose commands are answered, and one whose turns are used.
ANSWERED, SPENT = 0, 8
# How often noise is made and a stop is thought of.
PAUSE = 0.005


def bytes_of(party):
    return bytes([party[0] == "c"]) + int(party[1:]).to_bytes(2, "big")


def tag_of(maker, receiver, content):
    """The tag of a party for another over a content, in a cluster with the seed of zeros."""
    key = hashlib.sha256(b"\x02" + bytes.fromhex(SEED) + bytes_of(maker) + bytes_of(receiver)).digest()
    return hmac.digest(key, content, "sha256")


def bound(port):
    """A socket that has this port."""
    held = socket.socket(socket.AF_INET, socket.SOCK_DGRAM)
    try:
        held.bind((HOST, port))
    except OSError:
        held.close()
        raise
    return held


def free_base():
    """A number such that the ports of a cluster that begins there are free. No two calls give the same, nor do scripts that run side by
    side: a port behind those of the cluster is held until the script ends."""
    for base in BASES:
        with contextlib.suppress(OSError), contextlib.ExitStack() as sockets, contextlib.ExitStack() as kept:
            kept.enter_context(bound(base + 199))
            for port in (*range(base, base + 7), *range(base + 100, base + 116)):
                sockets.enter_context(bound(port))
            KEPT.append(kept.pop_all())
            return base


@functools.cache
def keys_of(party, clients, lms, seed, every=0):
    """The keys of a party under Quorum. They take seconds, and are the same under each plan."""
    words = ["--plan", "quorum", "--f", "1", "--clients", str(clients), "--service", "kv", "--lms", str(lms)]
    words = [PROGRAM, "keys", *words, "--seed", seed, "--party", party, "--checkpoint", str(every)]
    return subprocess.run(words, capture_output=True, check=True, timeout=SECONDS).stdout


class Cluster:
    """The nodes of a cluster with f 1, as processes whose lines go to one file."""

    seed = SEED

    def __init__(self, folder, asked):
        self.folder, self.asked = pathlib.Path(folder), asked
        # After how many requests a checkpoint is due.
        self.every = getattr(asked, "checkpoint", 0)
        self.lines = self.folder / "lines"
        self.lines.touch()
        self.nodes = {}
        # The folder of the nodes' journals. Without it they have none.
        self.journals = None

    def set_up(self, party, commands=()):
        """Writes the text that sets up a party, so that nothing waits for this script later."""
        text = self.keys(party) + b"".join(b"do %s\n" % it for it in commands) + b"end\n"
        (self.folder / party).write_bytes(text)

    def folder_of(self, party):
        """The folder of this party's journal."""
        return self.journals

    def path_of(self, party):
        """The file to which this party writes its lines."""
        return self.lines

    def start(self, party, turns, wait):
        words = ["node", "--base", self.asked.base, "--wait", wait, "--turns", turns]
        if not self.asked.quiet:
            words.append("--trace")
        if self.journals:
            words += ["--journal", party]
        with (self.folder / party).open("rb") as given, self.path_of(party).open("ab") as taken:
            self.nodes[party] = subprocess.Popen(
                [PROGRAM, *map(str, words)], stdin=given, stdout=taken, stderr=subprocess.PIPE, cwd=self.folder_of(party)
            )

    def keys(self, party):
        asked = self.asked
        text = keys_of(party, asked.clients, asked.lms, self.seed, self.every)
        return text.replace(b"plan quorum\n", b"plan %s\n" % asked.plan.encode())

    def wait_for_ports(self, seconds):
        """Waits until each replica listens: nobody answers a datagram to a port that isn't open but the system, which refuses it."""
        end = time.monotonic() + seconds
        for port in range(self.asked.base, self.asked.base + REPLICAS):
            while not is_open(port):
                if end < time.monotonic():
                    raise TimeoutError(f"nobody listens on port {port}")
                time.sleep(0.01)

    def wait_for(self, parties, seconds, meanwhile=None):
        """Waits until these nodes have ended, or the seconds are over, and makes a call again and again meanwhile. Returns when the
        last of them ended."""
        last = end = time.monotonic() + seconds
        with contextlib.ExitStack() as files, selectors.DefaultSelector() as waiting:
            for party in parties:
                file = os.pidfd_open(self.nodes[party].pid)
                files.callback(os.close, file)
                waiting.register(file, selectors.EVENT_READ)
            while waiting.get_map() and time.monotonic() < end:
                if meanwhile:
                    meanwhile()
                for ended, _ in waiting.select(PAUSE if meanwhile else seconds):
                    last = time.monotonic()
                    waiting.unregister(ended.fileobj)
        return last

    def running(self):
        return [party for party, node in self.nodes.items() if node.poll() is None]

    def stop(self):
        """Stops the nodes that still run, and returns the statuses of all, and what they said."""
        for party in self.running():
            self.nodes[party].kill()
        said = {party: node.communicate()[1].decode() for party, node in self.nodes.items()}
        return {party: node.returncode for party, node in self.nodes.items()}, said

    def dropped(self):
        """How many datagrams the system dropped at the port of each node that runs, if any."""
        rows = [line.split() for line in pathlib.Path("/proc/net/udp").read_text().splitlines()[1:]]
        drops = {int(row[1].partition(":")[2], 16): int(row[-1]) for row in rows}
        ports = {party: self.asked.base + int(party[1:]) + 100 * party.startswith("c") for party in self.running()}
        return {party: drops[port] for party, port in ports.items() if drops.get(port)}

    def written(self):
        """All that its nodes wrote."""
        return self.lines.read_bytes()

    def lines_of(self, *words):
        """Its lines that begin with one of these words."""
        return [line for line in self.written().splitlines() if line.split(b" ")[0] in words]

    def replies(self):
        """What was committed: stamp, instance, number and reply of each."""
        words = [line.decode().split(" ") for line in self.lines_of(b"reply")]
        return sorted((int(w[1]), int(w[2]), int(w[3]), " ".join(w[4:])) for w in words)

    def replayed(self):
        """The report of all its events, and what is said of them."""
        asked = self.asked
        lines = [line.encode() for line in head(asked.plan, clients=asked.clients, lms=asked.lms, seed=SEED, every=self.every)]
        lines += [*self.lines_of(b"invoke", b"inject", b"timeout"), b"end", b""]
        _, report, said = ran(["replay"], b"\n".join(lines))
        return report.decode().splitlines(), said.decode()


class Gathered:
    """A cluster with f 1 that the command `cluster` runs. Its nodes have few turns, so it ends by itself."""

    def __init__(self, base, commands, plan="quorum", wait=50, turns=60, every=0):
        words = ["--plan", plan, "--f", "1", "--service", "kv", "--lms", "5", "--seed", SEED, "--checkpoint", str(every)]
        self.node_words = ["node", "--base", str(base), "--wait", str(wait), "--turns", str(turns)]
        words = [str(PROGRAM), "cluster", *words, *self.node_words[1:]]
        self.words = spelled(words)
        # It has a group of its own, as a command of a shell has.
        self.process = subprocess.Popen(
            words, stdin=subprocess.PIPE, stdout=subprocess.PIPE, stderr=subprocess.PIPE, start_new_session=True
        )
        self.process.stdin.write(b"".join(b"do %s\n" % it for it in commands) + b"end\n")
        self.process.stdin.close()
        self.process.stdin = None

    def nodes(self):
        """The processes of its nodes, in the order in which they were started, once all are there. Until a child runs its program, its words
        are the launcher's."""
        end = time.monotonic() + SECONDS
        while len(found := children_of(self.process.pid)) <= REPLICAS or self.words in map(words_of, found):
            if self.process.poll() is not None:
                raise ChildProcessError(f"the cluster ended before all its nodes were seen: {self.ended()}")
            if end < time.monotonic():
                raise TimeoutError(f"{len(found)} nodes run")
            time.sleep(0.01)
        return [int(pid) for pid in found]

    def ended(self):
        """Its status, that of each party as it stands in the report, what the client wrote, and what was said."""
        written, said = self.process.communicate(timeout=SECONDS)
        lines = written.decode().splitlines()
        statuses = dict(line.split(" ")[1:] for line in lines if line.startswith("child "))
        return self.process.returncode, statuses, [line for line in lines if not line.startswith("child ")], said.decode()

    def stop(self):
        """Ends it and its nodes, if they still run."""
        with contextlib.suppress(ProcessLookupError):
            os.killpg(self.process.pid, signal.SIGKILL)
        self.process.wait()


def children_of(pid):
    """The processes that a process of one thread started and hasn't waited for. One that has ended has none."""
    try:
        return pathlib.Path(f"/proc/{pid}/task/{pid}/children").read_text().split()
    except FileNotFoundError:
        return []


def spelled(words):
    """The words of a process as the system tells them, each ended by a zero byte."""
    return b"".join(word.encode() + b"\0" for word in words)


def words_of(pid):
    """The words of a process, spelled so. One that has ended has none, nor has one whose program is just being loaded."""
    try:
        return pathlib.Path(f"/proc/{pid}/cmdline").read_bytes()
    except FileNotFoundError:
        return b""


def is_there(pid):
    """Whether a process runs."""
    try:
        return pathlib.Path(f"/proc/{pid}/stat").read_text().rpartition(")")[2].split()[0] != "Z"
    except FileNotFoundError:
        return False


def is_open(port):
    """Whether somebody takes datagrams at this port. Who does gets one that is no piece."""
    with socket.socket(socket.AF_INET, socket.SOCK_DGRAM) as probe:
        probe.settimeout(0.05)
        probe.connect((HOST, port))
        try:
            probe.send(b"?")
            probe.recv(1)
        except ConnectionRefusedError:
            return False
        except TimeoutError:
            return True
    return True


def commits_of(report):
    """The same as `Cluster.replies`, from the lines `commit E C I K N REPLY` of a report."""
    words = [line.split(" ") for line in report if line.startswith("commit ")]
    return sorted((int(w[4]), int(w[3]), int(w[5]), " ".join(w[6:])) for w in words)


class Trouble:
    """What comes to a cluster while its clients run: random datagrams, and the stop of a replica."""

    def __init__(self, cluster, asked, sender, lines):
        self.cluster, self.asked, self.sender, self.lines = cluster, asked, sender, lines
        self.random = random.Random(7)
        self.victim, _, count = (asked.stop or "").partition("@")
        self.left = int(count or 0)
        self.cut = b""

    def make(self):
        if self.asked.noise:
            self.make_noise()
        if self.victim:
            self.left -= self.new_replies()
            if self.left <= 0:
                self.cluster.nodes[self.victim].kill()
                self.cluster.nodes[self.victim].wait()
                self.victim = ""

    def new_replies(self):
        """How many commands were answered since the last call. It reads what is new alone, to leave the processor to the nodes."""
        *lines, self.cut = (self.cut + self.lines.read()).split(b"\n")
        return sum(line.startswith(b"reply ") for line in lines)

    def make_noise(self):
        base, draws = self.asked.base, self.random
        for port in (*range(base, base + REPLICAS), *range(base + 100, base + 100 + self.asked.clients)):
            data = draws.randbytes(draws.choice([0, 1, 16, 17, 100, 8208]))
            if len(data) >= 17 and draws.random() < 0.5:
                data = b"\x01\x00\x00" + bytes([draws.randrange(REPLICAS)]) + data[4:12] + b"\x00\x00\x00\x01" + data[16:]
            self.sender.sendto(data, (HOST, port))


class Watch(threading.Thread):
    """Looks when the first command is answered. From then on a node sleeps for so many milliseconds, runs for one, and sleeps again, if
    that is asked for. Nothing else is done while commands are answered."""

    def __init__(self, cluster, late):
        super().__init__()
        self.cluster, self.late = cluster, late
        self.ended, self.first = threading.Event(), None

    def run(self):
        with self.cluster.lines.open("rb") as lines:
            while b"reply " not in lines.read() and not self.ended.wait(PAUSE):
                pass
        self.first = time.monotonic()
        party, _, pause = (self.late or "").partition("@")
        while party and not self.ended.wait(0.001):
            self.cluster.nodes[party].send_signal(signal.SIGSTOP)
            self.ended.wait(int(pause) / 1000)
            self.cluster.nodes[party].send_signal(signal.SIGCONT)

    def __enter__(self):
        self.start()
        return self

    def __exit__(self, *_):
        self.ended.set()
        self.join()


def command_of(asked, client, number):
    """A client's command, of at least the bytes that are asked for."""
    return (b"put k%d_%d v%d" % (client, number % 50, number)).ljust(asked.length, b"x")


def run(cluster, asked):
    """Lets the clients' commands be answered, and returns the seconds that the first one took and those that all took, from when all replicas
    listened."""
    replicas, clients = [f"r{r}" for r in range(REPLICAS)], [f"c{c}" for c in range(asked.clients)]
    for c, client in enumerate(clients):
        cluster.set_up(client, [command_of(asked, c, n) for n in range(asked.commands)])
    for replica in replicas:
        cluster.set_up(replica)
        cluster.start(replica, 1_000_000_000, asked.wait)
    cluster.wait_for_ports(60)
    with socket.socket(socket.AF_INET, socket.SOCK_DGRAM) as sender, cluster.lines.open("rb") as lines:
        trouble = Trouble(cluster, asked, sender, lines)
        begin = time.monotonic()
        for client in clients:
            cluster.start(client, 100 * asked.commands + 1000, asked.wait)
        seconds = 60 + asked.commands * asked.clients
        with Watch(cluster, asked.late) as watch:
            end = cluster.wait_for(clients, seconds, trouble.make if asked.noise or asked.stop else None)
        return watch.first - begin, end - begin


def faults_of(asked, running, statuses, answered):
    """What is wrong with how the nodes ended, and with how many commands were answered."""
    wanted = 1 if asked.stop or asked.noise else asked.commands * asked.clients
    if answered < wanted:
        yield f"{answered} commands answered, where {wanted} have to be"
    stopped = (asked.stop or "").partition("@")[0]
    for party, status in statuses.items():
        if party.startswith("c") and party in running:
            yield f"{party} hangs"
        elif party.startswith("c") and status not in (ANSWERED, SPENT):
            yield f"{party} ended with status {status}"
        elif party.startswith("r") and party not in (*running, stopped):
            yield f"{party} ended by itself, with status {status}"
        elif party == stopped and party in running:
            yield f"{party} wasn't stopped before the clients ended"


def compared(cluster):
    """Tells what the replay of all traces says beside the nodes, and yields how they differ."""
    report, said = cluster.replayed()
    premise = [line for line in report if line.startswith("premise")]
    print(f"replay of all traces: {', '.join(premise + report[-1:])} {said.strip()}")
    if premise != ["premise held"]:
        yield "the replay of all traces doesn't say that its premises held"
    replies, numbers = cluster.replies(), {}
    if commits_of(report) != replies:
        yield "the replay of all traces commits otherwise than the nodes"
    for _, instance, number, reply in replies:
        if numbers.setdefault((instance, number), reply) != reply:
            yield f"two replies of number {number} in instance {instance} differ"


def add_options(parser, commands, lms, checkpoint):
    """What is asked of a cluster by each script that runs one, and what it is if nothing is said."""
    parser.add_argument("--commands", type=int, default=commands)
    parser.add_argument("--length", type=int, default=0)
    parser.add_argument("--wait", type=int, default=200)
    parser.add_argument("--base", type=int)
    parser.add_argument("--lms", default=lms)
    parser.add_argument("--checkpoint", type=int, default=checkpoint)


def options():
    parser = parser_of(__doc__)
    parser.add_argument("--plan", default="quorum")
    parser.add_argument("--clients", type=int, default=1)
    add_options(parser, commands=1000, lms="10", checkpoint=0)
    parser.add_argument("--stop")
    parser.add_argument("--late")
    parser.add_argument("--noise", action="store_true")
    parser.add_argument("--quiet", action="store_true")
    return parser.parse_args()


def main():
    asked = options()
    asked.base = asked.base or free_base()
    need("abstract_bft")
    end_in_order()
    with tempfile.TemporaryDirectory() as folder:
        cluster = Cluster(folder, asked)
        try:
            first, seconds = run(cluster, asked)
            running, dropped = cluster.running(), cluster.dropped()
        finally:
            statuses, said = cluster.stop()
        answered = len(cluster.replies())
        told = f"{answered} of {asked.commands * asked.clients} commands answered in {seconds:.3f} s"
        print(f"{told}, {answered / seconds:.0f} a second, {'without' if asked.quiet else 'with'} traces")
        if answered > 1:
            print(f"the first one after {first:.3f} s, then {(answered - 1) / (seconds - first):.0f} a second")
        print(f"datagrams that the system dropped: {dropped}")
        print(f"nodes said: {[f'{party}: {text.strip()}' for party, text in said.items() if text]}")
        faults = [*faults_of(asked, running, statuses, answered), *([] if asked.quiet else compared(cluster))]
    print("\n".join(faults), end="\n" if faults else "")
    sys.exit(1 if faults else 0)


if __name__ == "__main__":
    main()
