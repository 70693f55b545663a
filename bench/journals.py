"""The journals of nodes: their bytes, by code that shares nothing with the program, clusters whose nodes have journals and are killed, and
the schedule of what all journals of a cluster have."""

import collections
import dataclasses
import hashlib
import re

import cluster
from programs import ran
from schedules import head

# The codes of bodies. The first body of a journal is a mark, and each further one an event.
MARK, COMMAND, MESSAGE, TIMEOUT = range(4)
OPEN, SHUT = b"\1", b"\0"
TURNS = 1_000_000_000
# The messages that are long or come often, by their codes.
KINDS = {6: "ABORT", 7: "INIT", 8: "PRE-PREPARE", 9: "PREPARE", 11: "VIEW-CHANGE", 12: "NEW-VIEW"}
# Where a line begins, also behind one of which the end is missing since its writer was killed.
BEGINNING = re.compile(rb"invoke c|inject [rc]|timeout [rc]|reply \d|end \d")


def entry(body, gate=OPEN):
    return gate + len(body).to_bytes(4, "big") + body


def spelled(bodies):
    """The bytes of a journal with these bodies: their entries, and the next gate, which is shut."""
    return b"".join(map(entry, bodies)) + SHUT


def read(data):
    """The bodies of the entries that are there, and the place behind them."""
    bodies, at = [], 0
    while len(data) >= at + 5 and data[at : at + 1] == OPEN:
        end = at + 5 + int.from_bytes(data[at + 1 : at + 5], "big")
        if len(data) < end:
            break
        bodies.append(data[at + 5 : end])
        at = end
    return bodies, at


def opened(data):
    """The bytes of a journal once it was opened: the gate behind its entries is there, and isn't open."""
    at = read(data)[1]
    return data[:at] + SHUT + data[at + 1 :] if data[at : at + 1] in (b"", OPEN) else data


def torn(bodies):
    """The bytes of a journal with these bodies, cut at each byte of its last two entries, and one whose last gate isn't open."""
    whole = spelled(bodies)
    begin, shut = (len(spelled(bodies[:-count])) - 1 for count in (2, 1))
    yield from (whole[:length] for length in range(begin, len(whole) + 1))
    yield whole[:shut] + SHUT + whole[shut + 1 :]


def bodies_at(path):
    """The bodies of the journal in this file, which may not be there yet."""
    return read(path.read_bytes())[0] if path.exists() else []


def mark_of(text):
    """The first body of the journal of a node that this text sets up."""
    return bytes([MARK]) + hashlib.sha256(b"\x0a" + text).digest()


def line_of(party, body):
    """The line of a schedule that tells this event of the party."""
    party, code, rest = party.encode(), body[0], body[1:]
    if code == COMMAND:
        return b"invoke %s %s" % (party, rest)
    if code == MESSAGE:
        return b"inject %s %s" % (party, rest.hex().encode())
    return b"timeout %s" % party


def filling(journals):
    """What fills these journals most, each a list of bodies: how many messages of a kind, and their bytes."""
    messages = [body[1:] for bodies in journals for body in bodies[1:] if body[0] == MESSAGE]
    counts, sizes = collections.Counter(), collections.Counter()
    for message in messages:
        kind = KINDS.get(message[0], "others")
        counts[kind] += 1
        sizes[kind] += len(message)
    return ", ".join(f"{counts[kind]} {kind} of {size:,} bytes" for kind, size in sizes.most_common(4))


def told(data):
    """The whole lines of a file to which all nodes append, each with its place. A line of which the end is missing is left out."""
    at = 0
    for line in data.split(b"\n")[:-1]:
        begins = [found.start() for found in BEGINNING.finditer(line)] or [0]
        yield at + begins[-1], line[begins[-1] :]
        at += len(line) + 1


@dataclasses.dataclass
class Life:
    """A process of a party: how long the file of all lines was when it began, and how many events its journal had."""

    party: str
    begin: int
    events: int


class Kept(cluster.Cluster):
    """A cluster whose nodes have journals, and can be killed and started again."""

    def __init__(self, folder, asked):
        super().__init__(folder, asked)
        self.journals = self.folder / "journals"
        self.journals.mkdir()
        self.commands, self.lives, self.kills = {}, [], 0
        # The folders of parties that have their journal elsewhere.
        self.elsewhere = {}

    def folder_of(self, party):
        return self.elsewhere.get(party, self.journals)

    def bodies(self, party):
        return bodies_at(self.folder_of(party) / party)

    def set_up(self, party, commands=()):
        super().set_up(party, commands)
        self.commands[party] = list(commands)

    def begin(self, party):
        """Starts a process of this party. The one before it has ended, so what it wrote stands before this place."""
        events = max(0, len(self.bodies(party)) - 1)
        self.lives.append(Life(party, self.lines.stat().st_size, events))
        self.start(party, TURNS, self.asked.wait)

    def kill(self, parties):
        """Kills the processes of these parties at once, and returns the parties of those that hadn't ended by themselves."""
        for party in parties:
            self.nodes[party].kill()
        killed = [party for party in parties if self.nodes[party].wait() < 0]
        for party in killed:
            self.nodes[party].stderr.close()
        self.kills += len(killed)
        return killed

    def lives_of(self, party, length):
        """The processes of a party, each with the place and the number of events at which its lines end."""
        own = [life for life in self.lives if life.party == party]
        events = max(0, len(self.bodies(party)) - 1)
        ends = [(life.begin, life.events) for life in own[1:]] + [(length, events)]
        return list(zip(own, ends))


class Schedule:
    """The schedule of what the journals of a cluster have. Each event stands at the line that its party wrote before it kept it: the
    first one, since a process writes the lines of the events that it finds in its journal again."""

    def __init__(self, nodes):
        self.nodes, self.faults, self.data = nodes, [], nodes.lines.read_bytes()
        self.lines = {party: [] for party in nodes.commands}
        self.replies = []
        for at, line in told(self.data):
            word, _, rest = line.partition(b" ")
            if word in (b"invoke", b"inject", b"timeout"):
                self.lines[rest.split(b" ", 1)[0].decode()].append((at, line))
            elif word == b"reply":
                self.replies.append((at, line.decode()))
        placed = sorted(event for party in self.lines for event in self.events_of(party))
        self.events = [line for _, line in placed]

    def events_of(self, party):
        """The events of a party's journal, each with its place."""
        events = [line_of(party, body) for body in self.nodes.bodies(party)[1:]]
        for life, (end, kept) in self.nodes.lives_of(party, len(self.data)):
            lines = [(at, line) for at, line in self.lines[party] if life.begin <= at < end]
            again, new = lines[: life.events], lines[life.events :]
            if [line for _, line in again] != events[: len(again)]:
                self.faults.append(f"{party} didn't write the lines of its journal again")
            wanted = events[life.events : kept]
            for at, line in new:
                # A message that doesn't open is in no journal, nor is an event at which its process was killed before it was kept.
                if wanted and line == wanted[0]:
                    yield at, wanted.pop(0)
            if wanted:
                self.faults.append(f"{party} kept {len(wanted)} events without a line, or in another order")

    def report(self):
        """The report of the schedule, and what is said of it."""
        asked = self.nodes.asked
        begin = [line.encode() for line in head(asked.plan, clients=asked.clients, lms=asked.lms, seed=cluster.SEED)]
        text = b"\n".join([*begin, *self.events, b"end", b""])
        (self.nodes.folder / "all.sched").write_bytes(text)
        status, report, said = ran(["replay"], text)
        return status, report.decode().splitlines(), said.decode().strip()


def commits_by_client(report):
    """The lines `reply` that the clients have to write, by the report's lines `commit E C I K N REPLY`, in their order."""
    found = {}
    for line in report:
        if line.startswith("commit "):
            _, _, client, instance, stamp, number, reply = line.split(" ", 6)
            found.setdefault(client, []).append(f"reply {stamp} {instance} {number} {reply}")
    return found


def written_by(lines, wanted, others):
    """The lines of one client among these. Two clients may have a line in common, since all requests of a base have its length as their
    number; such a line counts if it is due here."""
    written = []
    for line in lines:
        if line in wanted and (line not in others or wanted[len(written) : len(written) + 1] == [line]):
            written.append(line)
    return written


def reply_faults(nodes, schedule, commits):
    """What is wrong with the replies that the clients wrote: each process has to write its client's first replies, each once."""
    for _, line in schedule.replies:
        if not any(line in lines for lines in commits.values()):
            yield f"a client wrote {line!r}, and the replay doesn't commit it"
    for client in (party for party in nodes.commands if party.startswith("c")):
        wanted = commits.get(client, [])
        others = {line for other, lines in commits.items() if other != client for line in lines}
        for life, (end, _) in nodes.lives_of(client, len(schedule.data)):
            written = written_by([line for at, line in schedule.replies if life.begin <= at < end], wanted, others)
            if written != wanted[: len(written)]:
                yield f"a process of {client} wrote {written}, where the replay commits {wanted}"
        if nodes.nodes[client].returncode == cluster.ANSWERED and (written != wanted or len(written) != len(nodes.commands[client])):
            yield f"the last process of {client} wrote {len(written)} replies to {len(nodes.commands[client])} commands"


def command_faults(nodes):
    """What is wrong with the commands in the clients' journals: they have to be the client's first ones, each once and in their order."""
    for client in (party for party in nodes.commands if party.startswith("c")):
        invoked = [body[1:] for body in nodes.bodies(client)[1:] if body[0] == COMMAND]
        if invoked != nodes.commands[client][: len(invoked)]:
            yield f"{client} invoked {invoked}"


def faults_of(nodes):
    """What is wrong with a cluster whose nodes have all ended, and how many commands were answered."""
    schedule = Schedule(nodes)
    status, report, said = schedule.report()
    commits = commits_by_client(report)
    faults = [*schedule.faults, *command_faults(nodes)]
    premise = [line for line in report if line.startswith("premise")]
    if (status, premise) != (0, ["premise held"]):
        # Without a report there is nothing with which replies could be compared.
        fault = f"the replay of all journals ends with {status}: {', '.join(premise)} {said}; they have {filling(map(nodes.bodies, nodes.commands))}"
        return [*faults, fault], sum(map(len, commits.values()))
    faults += reply_faults(nodes, schedule, commits)
    numbers = {}
    for line in (line for lines in commits.values() for line in lines):
        _, _, instance, number, reply = line.split(" ", 4)
        if numbers.setdefault((instance, number), reply) != reply:
            faults.append(f"two replies of number {number} in instance {instance} differ")
    return faults, sum(map(len, commits.values()))
