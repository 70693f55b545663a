#!/usr/bin/env python3
"""Looks how large a message may be that comes to a node in one burst, as the system's receive buffer allows.

usage: bursts.py [--tries N] [--buffer BYTES].. [--base B]

A node sends all pieces of a message one after the other, and its receiver takes a datagram a turn. What the receiver hasn't taken yet
stands in its socket's buffer; what doesn't fit there the system drops. Messages of more and more pieces of 8,192 bytes go to the node of a
replica, which tells by its trace which of them came whole: while it runs beside all else that runs on this machine, and while it is
stopped until all pieces were sent, so that the buffer has to hold them all. Told are, for the buffer that the program gets (twice
net.core.rmem_max, and 16,777,216 bytes at most) and for each of `--buffer` bytes in its place, the most pieces that came whole each of N
times (5), and the datagrams that the system dropped. Then it tells for each kind of message how many requests a history may have for that,
with commands of 128 bytes and of 8: of those that correct parties send with `lms 10`, and how many pieces they have at most. A buffer needs
a C compiler, and the right to set it."""

import argparse
import contextlib
import os
import pathlib
import signal
import socket
import subprocess
import sys
import tempfile
import time

import cluster
from preload import built
from programs import PROGRAM, end_in_order, need, parser_of

BODY, MOST = 8192, 512
TURNS = 1_000_000_000
# What a socket of the program asks for.
ASKED = 8_388_608
# Gives a socket this buffer in place of the one that it asks for.
WIDENER = r"""
#define _GNU_SOURCE
#include <dlfcn.h>
#include <stdlib.h>
#include <sys/socket.h>
int setsockopt(int fd, int level, int name, const void *value, socklen_t n) {
    static int (*real)(int, int, int, const void *, socklen_t);
    int half = atoi(getenv("BUFFER")) / 2;
    if (!real) real = dlsym(RTLD_NEXT, "setsockopt");
    if (level != SOL_SOCKET || name != SO_RCVBUF) return real(fd, level, name, value, n);
    if (real(fd, level, SO_RCVBUFFORCE, &half, sizeof half)) abort();
    return 0;
}
"""
SIGNATURE = 2 + 2508
REQUEST = 2 + 8 + 2


def abort(history):
    return 1 + (1 + 3 + 4) + 2 + history + SIGNATURE


def init(history, f):
    return 2 + (2 * f + 1) * (abort(history) - 1)


def view_change(history, f):
    """With 17 slots, of which 16 have a request of 128 bytes beside the history."""
    slots = 17 * (4 + 32)
    return 1 + 3 + 4 + 4 + 1 + slots + SIGNATURE + 2 + history + 17 * (1 + (2 * f + 1) * (1 + SIGNATURE))


def new_view(history, f):
    return 1 + 12 + 32 + 1 + (2 * f + 1) * view_change(history, f)


KINDS = {
    "ABORT": lambda history: abort(history),
    "INIT, f 1": lambda history: init(history, 1),
    "INIT, f 2": lambda history: init(history, 2),
    "VIEW-CHANGE, f 1": lambda history: 1 + view_change(history, 1),
    "VIEW-CHANGE, f 2": lambda history: 1 + view_change(history, 2),
    "NEW-VIEW, f 1": lambda history: new_view(history, 1),
    "NEW-VIEW, f 2": lambda history: new_view(history, 2),
}


def pieces_of(size):
    return -(-size // BODY)


class Receiver:
    """The node of r0, with a buffer of so many bytes; with that for which it asks for None."""

    def __init__(self, folder, base, buffer):
        self.folder, self.base, self.number = folder, base, 0
        every = dict(os.environ)
        if buffer:
            every |= {"LD_PRELOAD": built(folder, WIDENER), "BUFFER": str(buffer)}
        words = [PROGRAM, "node", "--base", str(base), "--wait", "60000", "--turns", str(TURNS), "--trace"]
        self.lines = folder / f"lines{buffer or 0}"
        text = cluster.keys_of("r0", 1, "5", cluster.SEED) + b"end\n"
        (folder / "text").write_bytes(text)
        with (folder / "text").open("rb") as given, self.lines.open("wb") as taken:
            self.node = subprocess.Popen(words, stdin=given, stdout=taken, env=every)
        end = time.monotonic() + 60
        while not cluster.is_open(base):
            if end < time.monotonic():
                raise TimeoutError("the node doesn't listen")

    def burst(self, count, stopped):
        """Sends a message of so many pieces, and answers whether it came whole."""
        self.number += 1
        head = b"\1\0\0\1" + self.number.to_bytes(8, "big")
        data = [head + n.to_bytes(2, "big") + count.to_bytes(2, "big") + b"\xff" * BODY for n in range(count)]
        before = self.lines.stat().st_size
        with socket.socket(socket.AF_INET, socket.SOCK_DGRAM) as link:
            link.connect((cluster.HOST, self.base))
            if stopped:
                self.node.send_signal(signal.SIGSTOP)
                self.wait_until(lambda: self.state() == "T")
            for piece in data:
                link.send(piece)
            self.node.send_signal(signal.SIGCONT)
            # A message of one piece comes behind it, again and again, since it may be dropped too.
            wanted = before + len(b"inject r0 fe\n")
            while True:
                self.number += 1
                link.send(b"\1\0\0\2" + self.number.to_bytes(8, "big") + b"\0\0\0\1" + b"\xfe")
                with contextlib.suppress(TimeoutError):
                    self.wait_until(lambda: self.lines.stat().st_size >= wanted and self.told(before).endswith(b"fe\n"), 0.5)
                    break
        return self.lines.stat().st_size - before > 2 * count * BODY

    def told(self, at):
        with self.lines.open("rb") as file:
            file.seek(max(at, self.lines.stat().st_size - 3))
            return file.read()

    def state(self):
        return pathlib.Path(f"/proc/{self.node.pid}/stat").read_text().rpartition(")")[2].split()[0]

    def wait_until(self, holds, seconds=60):
        end = time.monotonic() + seconds
        while not holds():
            if end < time.monotonic():
                raise TimeoutError("what has to come didn't")
            time.sleep(0.0005)

    def dropped(self):
        rows = [line.split() for line in pathlib.Path("/proc/net/udp").read_text().splitlines()[1:]]
        return sum(int(row[-1]) for row in rows if int(row[1].partition(":")[2], 16) == self.base)

    def most(self, tries, stopped):
        """The most pieces that come whole each time, up to which all do."""
        low, high = 1, MOST + 1
        while high - low > 1:
            middle = (low + high) // 2
            if all(self.burst(middle, stopped) for _ in range(tries)):
                low = middle
            else:
                high = middle
        return low


def longest(size_of, pieces, command):
    """The most requests of a history with which a message has at most so many pieces."""
    fitting = [n for n in range(1025) if pieces_of(size_of(n * (REQUEST + command))) <= pieces]
    return max(fitting, default=None)


def tell(buffer, most, dropped):
    name = f"a buffer of {buffer} bytes" if buffer else f"the program's own buffer, {own_buffer()} bytes"
    print(f"{name}: {most[False]} pieces came whole while the node ran, {most[True]} while it was stopped; {dropped} dropped")
    for kind, size_of in KINDS.items():
        counts = [longest(size_of, most[True], command) for command in (128, 8)]
        shown = ["none" if n is None else str(n) for n in counts]
        size = size_of(1024 * (REQUEST + 128))
        print(f"    {kind}: histories of {shown[0]} requests of 128 bytes, {shown[1]} of 8; at most {size} bytes, {pieces_of(size)} pieces")


def own_buffer():
    """The system gives twice what is asked for, and at most twice its limit."""
    return 2 * min(ASKED, int(pathlib.Path("/proc/sys/net/core/rmem_max").read_text()))


def main():
    parser = parser_of(__doc__)
    parser.add_argument("--tries", type=int, default=5)
    parser.add_argument("--buffer", type=int, action="append", default=[])
    parser.add_argument("--base", type=int)
    asked = parser.parse_args()
    need("abstract_bft")
    end_in_order()
    for buffer in (None, *asked.buffer):
        with tempfile.TemporaryDirectory() as folder:
            receiver = Receiver(pathlib.Path(folder), asked.base or cluster.free_base(), buffer)
            try:
                most = {stopped: receiver.most(asked.tries, stopped) for stopped in (True, False)}
                tell(buffer, most, receiver.dropped())
            finally:
                receiver.node.kill()
                receiver.node.wait()
        sys.stdout.flush()


if __name__ == "__main__":
    main()
