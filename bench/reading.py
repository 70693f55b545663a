#!/usr/bin/env python3
"""Times the reading of three messages beside a plain copy of their bytes: a CHAIN, an INIT of histories with one request and
with 100, and a NEW-VIEW of three million bytes.

usage: reading.py [--quick]

The bytes are of the grammar, with tags and signatures that nobody made: reading looks at none. Each message is read and copied
10,000 times for each of its lines in a process of its own (`ab_rows`), and the processor time that the same process takes without
either is taken off. Prints microseconds and bytes per second, the best of five runs each, and how many times as long as a copy the
reading takes. With `--quick` each message has one line, which tells less."""

import struct
import sys

from programs import need, parser_of, path_of, ran
from timing import least_processor_time

READER = path_of("ab_rows")
TIMES = 10_000
TAG = b"\x5a" * 32
SIGNATURE = struct.pack(">H", 2508) + b"\xa5" * 2508
DIGEST = b"\x3c" * 32


def of_replica(code, replica, instance=1):
    """A content's code, its maker and its instance."""
    return struct.pack(">BBHI", code, 0, replica, instance)


def request(stamp, command):
    return struct.pack(">HQH", 0, stamp, len(command)) + command


def history(length, command):
    return struct.pack(">H", length) + b"".join(request(1 + i, command) for i in range(length))


def chain():
    """Four tags between positions, and no reply yet."""
    tags = b"".join(struct.pack(">BHBH", 0, maker, 0, maker + 1) + TAG for maker in range(4))
    return struct.pack(">BI", 4, 1) + request(1, b"put a 1") + struct.pack(">H", 1) + DIGEST + b"\0\4" + tags


def init(length):
    """Three signed histories of so many requests."""
    aborts = (of_replica(6, maker) + history(length, b"put a 1") + SIGNATURE for maker in range(3))
    return b"\7\3" + b"".join(aborts)


def view_change(maker):
    """Seventeen entries, each prepared by seven signatures, on a base of 900 requests."""
    entries = b"\x11" + (struct.pack(">I", 0) + DIGEST) * 17
    signed = of_replica(10, maker) + struct.pack(">I", 1) + entries + SIGNATURE
    values = history(900, b"p" * 128) + b"".join(request(901 + i, b"put a 1") for i in range(16))
    signers = b"\7" + b"".join(struct.pack(">B", by) + SIGNATURE for by in range(7))
    return signed + values + signers * 17


def new_view():
    """Seven view changes."""
    return b"\x0c" + of_replica(11, 1) + struct.pack(">I", 1) + TAG + b"\7" + b"".join(view_change(m) for m in range(7))


def seconds(mark, message, lines):
    """The processor time of a process for so many lines, the best of five."""
    text = (mark + message.hex().encode() + b"\n") * lines
    wanted = 0, b"%d as told, 0 not\n" % lines

    def read():
        status, out, said = ran([], text, program=READER)
        if (status, out) != wanted:
            sys.exit(f"the reader ended with {status}: {out!r}, {said!r}")

    return least_processor_time(read)


def tell(name, message, lines):
    """Times the reading of a message, and the copying of its bytes."""
    idle = seconds(b"n", message, lines)
    read, copied = ((seconds(mark, message, lines) - idle) / (TIMES * lines) for mark in (b"r", b"c"))
    rates = (f"{what} {1e6 * took:.2f} us, {len(message) / took:.3g} bytes/s" for what, took in (("read", read), ("copied", copied)))
    print(f"{name}, {len(message)} bytes: {', '.join(rates)}, {read / copied:.2f} times a copy", flush=True)


def main():
    parser = parser_of(__doc__)
    parser.add_argument("--quick", action="store_true")
    quick = parser.parse_args().quick
    need("ab_rows", by="`rt run` in crates/ab_rows")
    messages = (("CHAIN", chain(), 300), ("INIT", init(1), 30), ("INIT", init(100), 30), ("NEW-VIEW", new_view(), 1))
    for name, message, lines in messages:
        tell(name, message, 1 if quick else lines)


if __name__ == "__main__":
    main()
