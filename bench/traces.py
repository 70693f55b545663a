#!/usr/bin/env python3
"""Puts the traces of the nodes of a cluster together as one schedule, which `replay`, `draw` and the others read.

usage: traces.py --plan P --f F --clients N --service V --lms H [--checkpoint C] [--seed X] [--faulty PARTY].. PARTY=FILE..

P, F, N, V, H and C (0) are what the keys of the cluster were made for, and X is its seed (zeros). Each FILE is what the node of PARTY wrote with
`--trace`, or its journal. A node that was started again is told by its journal, since it writes the lines of before again. The schedule
goes to standard output:

    bench/traces.py --plan quorum --f 1 --clients 1 --service kv --lms 5 --seed $seed r0=r0.lines .. c0=c0.lines > run.sched

A trace has what its party took, and not what it sent. So each party is run once more: the program, between which and the C library stands
one that hands it its events and takes what it sends (this needs a C compiler). It has to write the same lines again. Then each message
that was taken is a packet of the event in which it was sent, and each event stands where all that its party took before was sent: so
nothing is taken before it was sent. Of events that could stand in either order, deliveries come first, timeouts late.

What was taken and is in no trace as sent becomes `inject`, as late as can be. It came from outside, or from a party that has no trace here,
or a trace lacks its end. A party without FILE is declared faulty, and so is each of `--faulty`: what is said in its name then counts as no
forgery. A trace may end earlier than the others, since its node was stopped: it is one that took nothing more. If its file has lost lines
that were written, then what others took of these events is injected, and the replay calls the first of it forged; so declare its party
faulty. Standard error tells how many messages were injected, and who is declared faulty.

It ends with 1 if a party doesn't write its lines again: then it is another cluster's, of another plan, seed or version, or it isn't whole."""

import argparse
import collections
import heapq
import itertools
import os
import pathlib
import re
import struct
import subprocess
import sys
import tempfile

import journals
from preload import built
from programs import PROGRAM, need, parser_of, ran
from schedules import ZEROS, head
from storms import PLANS

BASE, CLIENTS = 20_000, 100
BODY = 8192
EVENT = re.compile(rb"(invoke|inject|timeout) ([rc]\d+)(?: (.*))?")

# Hands the program the records of the file GIVEN in place of datagrams and time, and writes what it writes and sends to the file TAKEN.
PLAYER = r"""
#define _GNU_SOURCE
#include <dlfcn.h>
#include <errno.h>
#include <fcntl.h>
#include <netinet/in.h>
#include <stdint.h>
#include <stdio.h>
#include <stdlib.h>
#include <string.h>
#include <sys/socket.h>
#include <time.h>
#include <unistd.h>
static FILE *given, *taken;
static long long millis;
static int is_due;
__attribute__((constructor)) static void begin(void) {
    given = fopen(getenv("GIVEN"), "r");
    taken = fopen(getenv("TAKEN"), "w");
    if (!given || !taken) abort();
}
__attribute__((destructor)) static void end(void) { fflush(taken); }
static void put(char kind, uint32_t port, const void *bytes, size_t count) {
    uint32_t head[2] = { port, count };
    fputc(kind, taken);
    fwrite(head, sizeof head, 1, taken);
    fwrite(bytes, 1, count, taken);
}
int socket(int domain, int type, int protocol) { return open("/dev/null", O_RDWR); }
int bind(int fd, const struct sockaddr *a, socklen_t n) { return 0; }
int setsockopt(int fd, int level, int name, const void *value, socklen_t n) { return 0; }
int clock_gettime(clockid_t id, struct timespec *t) {
    if (is_due) { is_due = 0; millis += 60000; }
    t->tv_sec = 1000 + millis / 1000;
    t->tv_nsec = millis % 1000 * 1000000;
    return 0;
}
/* A timeout is due at the next reading of the clock, with which the next turn begins. */
static int is_timeout_next(void) {
    int kind = fgetc(given);
    if (kind != 'T') { ungetc(kind, given); return 0; }
    return is_due = 1;
}
ssize_t recvfrom(int fd, void *b, size_t n, int flags, struct sockaddr *a, socklen_t *l) {
    uint32_t count;
    if (is_timeout_next()) { errno = EAGAIN; return -1; }
    if (fgetc(given) == EOF) { end(); _exit(0); }
    if (fread(&count, sizeof count, 1, given) != 1 || n < count || fread(b, 1, count, given) != count) abort();
    if (a && l && sizeof(struct sockaddr_in) <= *l) {
        struct sockaddr_in from = { .sin_family = AF_INET, .sin_addr.s_addr = htonl(INADDR_LOOPBACK) };
        memcpy(a, &from, sizeof from);
        *l = sizeof from;
    }
    is_timeout_next();
    return count;
}
ssize_t sendto(int fd, const void *b, size_t n, int flags, const struct sockaddr *a, socklen_t l) {
    put('S', ntohs(((const struct sockaddr_in *)a)->sin_port), b, n);
    return n;
}
ssize_t write(int fd, const void *b, size_t n) {
    static ssize_t (*real)(int, const void *, size_t);
    if (!real) real = dlsym(RTLD_NEXT, "write");
    if (fd != 1) return real(fd, b, n);
    put('W', 0, b, n);
    return n;
}
"""


class Event:
    """An event of a party: its line, and what it sends, each message with its addressee."""

    def __init__(self, line):
        self.line, self.sent = line, []
        self.word, _, self.rest = EVENT.fullmatch(line).groups()

    def message(self):
        """The bytes that are taken. None if they aren't."""
        return bytes.fromhex(self.rest.decode()) if self.word == b"inject" else None


def lines_of(party, path):
    """The lines of the events that this file has, a trace or a journal. A line without its end is left out."""
    data = path.read_bytes()
    if data[:1] in (b"", journals.OPEN):
        return [journals.line_of(party, body) for body in journals.read(data)[0][1:]]
    found = [(line, EVENT.fullmatch(line)) for line in data.split(b"\n")[:-1]]
    return [line for line, match in found if match and match[2].decode() == party]


def datagrams(message, number):
    """The pieces of a message, in the name of r0."""
    bodies = [message[at : at + BODY] for at in range(0, len(message), BODY)]
    return [b"\1\0\0\0" + struct.pack(">QHH", number, n, len(bodies)) + body for n, body in enumerate(bodies)]


def records(events):
    """What the program is handed for these events. It invokes by itself."""
    for number, event in enumerate(events, 1):
        if event.word == b"timeout":
            yield b"T"
        elif event.word == b"inject":
            yield from (b"M" + struct.pack("=I", len(data)) + data for data in datagrams(event.message(), number))


def party_at(port):
    return f"c{port - BASE - CLIENTS}" if port >= BASE + CLIENTS else f"r{port - BASE}"


def played(taken):
    """The events of a party that was run: the lines that it wrote, and what it sent after each."""
    events, text, at, pieces = [], b"", 0, collections.defaultdict(dict)
    while at < len(taken):
        kind, (port, count) = taken[at : at + 1], struct.unpack_from("=II", taken, at + 1)
        data, at = taken[at + 9 : at + 9 + count], at + 9 + count
        if kind == b"W":
            *lines, text = (text + data).split(b"\n")
            events += [Event(line) for line in lines if EVENT.fullmatch(line)]
            continue
        number, index, whole = struct.unpack_from(">QHH", data, 4)
        pieces[number][index] = data[16:]
        if len(pieces[number]) == whole:
            message = b"".join(body for _, body in sorted(pieces.pop(number).items()))
            events[-1].sent.append((party_at(port), message))
    return events


class Cluster:
    """The parties of a cluster, and what they are told."""

    def __init__(self, asked):
        self.asked = asked
        self.replicas = [f"r{r}" for r in range(3 * asked.f + 1)]
        self.parties = [*self.replicas, *(f"c{c}" for c in range(asked.clients))]

    def text(self, party, commands):
        """The text that sets up a party."""
        asked = self.asked
        words = f"--plan {asked.plan} --f {asked.f} --clients {asked.clients} --service {asked.service} --lms {asked.lms}".split()
        words = ["keys", *words, "--checkpoint", str(asked.checkpoint), "--seed", asked.seed, "--party", party]
        status, keys, said = ran(words)
        if status:
            sys.exit(f"traces: {said.decode().strip()}")
        return keys + b"".join(b"do %s\n" % command for command in commands) + b"end\n"

    def played(self, party, lines, player, folder):
        """The events of a party, run once more."""
        events = [Event(line) for line in lines]
        given, taken = folder / "given", folder / "taken"
        given.write_bytes(b"".join(records(events)))
        text = self.text(party, [event.rest for event in events if event.word == b"invoke"])
        words = ["node", "--base", str(BASE), "--wait", "60000", "--turns", "1000000000", "--trace"]
        every = {**os.environ, "LD_PRELOAD": player, "GIVEN": str(given), "TAKEN": str(taken)}
        subprocess.run([PROGRAM, *words], input=text, env=every, stdout=subprocess.DEVNULL, check=False)
        again = played(taken.read_bytes())
        for number, (old, new) in enumerate(itertools.zip_longest(events, again), 1):
            if old is None or new is None or old.line != new.line:
                shown = [event.line[:60].decode() if event else "nothing" for event in (old, new)]
                sys.exit(f"traces: event {number} of {party} is {shown[0]!r}, and run once more {shown[1]!r}")
        return again


class Merge:
    """The events of all parties, in an order in which nothing is taken before it was sent."""

    # Which of the events that can stand next is taken.
    DELIVERY, COMMAND, TIMEOUT, FROM_OUTSIDE = range(4)

    def __init__(self, events):
        self.left = {party: collections.deque(own) for party, own in events.items()}
        self.ever = {packet for own in events.values() for event in own for packet in event.sent}
        # The numbers of the packets with an addressee and bytes, those first that weren't delivered yet.
        self.packets, self.sent, self.injected = {}, 0, 0
        self.waiting, self.ready, self.count = collections.defaultdict(list), [], itertools.count()

    def put(self, party):
        """Has a party's next event stand next, or wait for its message."""
        if not self.left[party]:
            return
        event = self.left[party][0]
        packet = party, event.message()
        if event.word == b"inject" and packet in self.ever:
            if packet not in self.packets:
                self.waiting[packet].append(party)
                return
            kind = self.DELIVERY
        else:
            kind = {b"invoke": self.COMMAND, b"timeout": self.TIMEOUT, b"inject": self.FROM_OUTSIDE}[event.word]
        heapq.heappush(self.ready, (kind, next(self.count), party))

    def line(self, party, event):
        """The event's line in the schedule."""
        numbers = self.packets.get((party, event.message()))
        if event.word != b"inject" or not numbers:
            self.injected += event.word == b"inject"
            return event.line
        # Bytes that were sent once and came twice are delivered again.
        number = numbers.popleft() if len(numbers) > 1 else numbers[0]
        return b"deliver %d" % number

    def send(self, event):
        for packet in event.sent:
            self.sent += 1
            self.packets.setdefault(packet, collections.deque()).append(self.sent)
            for party in self.waiting.pop(packet, []):
                self.put(party)

    def lines(self):
        for party in self.left:
            self.put(party)
        while self.ready:
            _, _, party = heapq.heappop(self.ready)
            event = self.left[party].popleft()
            yield self.line(party, event)
            self.send(event)
            self.put(party)


def merged(asked, files):
    """The schedule of a cluster, as bytes, and what is told of it. The files are those of the parties."""
    cluster = Cluster(asked)
    unknown = sorted({*files, *asked.faulty} - {*cluster.parties})
    if unknown:
        sys.exit(f"traces: the cluster has no {', '.join(unknown)}")
    faulty = [party for party in cluster.parties if party not in files or party in asked.faulty]
    with tempfile.TemporaryDirectory() as folder:
        folder = pathlib.Path(folder)
        player = built(folder, PLAYER)
        parties = [party for party in cluster.parties if party in files]
        merge = Merge({party: cluster.played(party, lines_of(party, files[party]), player, folder) for party in parties})
    lines = list(merge.lines())
    silent = [f"faulty {party} 1" for party in faulty]
    begin = head(asked.plan, asked.f, asked.clients, asked.service, asked.lms, silent, asked.seed, asked.checkpoint)
    told = f"{len(lines)} events, {merge.injected} messages from outside, declared faulty: {' '.join(faulty) or 'nobody'}"
    return b"\n".join([*(line.encode() for line in begin), *lines, b"end", b""]), told


def options():
    parser = parser_of(__doc__)
    parser.add_argument("--plan", choices=PLANS, required=True)
    parser.add_argument("--f", type=int, choices=(1, 2), required=True)
    parser.add_argument("--clients", type=int, required=True)
    parser.add_argument("--service", choices=("echo", "kv"), required=True)
    parser.add_argument("--lms", choices=("5", "10", "20"), required=True)
    parser.add_argument("--checkpoint", type=int, default=0)
    parser.add_argument("--seed", default=ZEROS)
    parser.add_argument("--faulty", action="append", default=[], metavar="PARTY")
    parser.add_argument("files", nargs="+", metavar="PARTY=FILE")
    asked = parser.parse_args()
    if any("=" not in word for word in asked.files):
        parser.error("each file is told as PARTY=FILE")
    return asked


def main():
    asked = options()
    need("abstract_bft")
    files = {party: pathlib.Path(path) for party, _, path in (word.partition("=") for word in asked.files)}
    text, told = merged(asked, files)
    sys.stdout.buffer.write(text)
    print(f"traces: {told}", file=sys.stderr)


if __name__ == "__main__":
    main()
