#!/usr/bin/env python3
"""Makes examples/audit: what a client took from the twins of a replica, and the input of an audit out of it.

usage: twins.py

The run is examples/audit/twins.sched. Its keys are those of 32 zero bytes, so this script, which shares no code with the programs, makes
the messages that c1 takes in it: three replies, and the ABORTs of r1, of r2 and of both twins of r0. It writes `c1.keys` and `c1.trace`
as a node of c1 would, and `twins.audit` out of both by audit_input.py. Then it writes by audits.py what an audit tells of them, without
the evidence to `twins.accused` and with it to `twins.why`."""

import hashlib
import hmac
import subprocess
import sys

import audits
import two_levels as lms
from programs import TOP, parser_of

FOLDER = TOP / "examples" / "audit"
SEED = bytes(32)
HEIGHT, TREE_TYPE = 5, 5
# What c0 and c1 ask.
ASKED = {0: b"put a 1", 1: b"put b 2"}


def of_party(kind, number):
    return lms.u8("rc".index(kind)) + lms.u16(number)


def request(client):
    command = ASKED[client]
    return lms.u16(client) + (1).to_bytes(8, "big") + lms.u16(len(command)) + command


def content(code, replica, rest):
    return lms.u8(code) + of_party("r", replica) + lms.u32(1) + rest


def key_between(one, other):
    """The key from one party to another."""
    return lms.sha(b"\x02", SEED, of_party(*one), of_party(*other))


def tag(replica, client, text):
    """The tag of a replica for a client."""
    return hmac.new(key_between(("r", replica), ("c", client)), text, hashlib.sha256).digest()


def reply(replica, client):
    """The RESP of a replica whose log has the client's request alone."""
    digest = lms.sha(b"\x01", bytes(32), request(client))
    text = content(3, replica, lms.u16(client) + (1).to_bytes(8, "big") + lms.u16(1) + digest + b"\x02ok")
    return b"\x03" + text + tag(replica, client, text)


def tree_of(replica):
    """The name and the seed of a replica's tree."""
    who = of_party("r", replica)
    return lms.sha(b"\x03", SEED, who)[:16], lms.sha(b"\x04", SEED, who)


def abort(replica, client):
    """The ABORT of a replica whose log has the client's request alone, by its first leaf."""
    name, seed = tree_of(replica)
    text = content(6, replica, lms.u16(1) + request(client))
    sig = lms.signature(name, seed, 0, text, lms.random_of(name, seed, 0))
    return b"\x06" + text + lms.u16(len(sig)) + sig


def key_text():
    """The key text of c1."""
    lines = ["keys 1", "party c1", "f 1", "clients 2", "plan azyzzyva", "service kv", f"lms {HEIGHT}"]
    for replica in range(4):
        lines.append(f"out r{replica} {key_between(('c', 1), ('r', replica)).hex()}")
        lines.append(f"in r{replica} {key_between(('r', replica), ('c', 1)).hex()}")
    return [*lines, *(f"public r{replica} {lms.public(*tree_of(replica)).hex()}" for replica in range(4))]


def trace():
    """What c1 did and took, line by line."""
    replies = [reply(replica, 1) for replica in (0, 2, 3)]
    aborts = [abort(0, 0), abort(0, 1), abort(1, 0), abort(2, 1)]
    taken = [f"inject c1 {message.hex()}" for message in replies], [f"inject c1 {message.hex()}" for message in aborts]
    return ["invoke c1 put b 2", *taken[0], "timeout c1", *taken[1]]


def write(name, lines):
    (FOLDER / name).write_text("".join(line + "\n" for line in lines))


def main():
    parser_of(__doc__).parse_args()
    lms.H, lms.TREE_TYPE = HEIGHT, TREE_TYPE
    write("c1.keys", key_text())
    write("c1.trace", trace())
    made = [sys.executable, TOP / "bench" / "audit_input.py", FOLDER / "c1.keys", FOLDER / "c1.trace"]
    (FOLDER / "twins.audit").write_bytes(subprocess.run(made, capture_output=True, check=True).stdout)
    for name, why in (("twins.accused", False), ("twins.why", True)):
        (FOLDER / name).write_bytes(audits.Audit((FOLDER / "twins.audit").read_bytes()).report(why)[1])


if __name__ == "__main__":
    main()
