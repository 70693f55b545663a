#!/usr/bin/env python3
"""Makes the messages that some rows inject or audit, with certificates of answers or with trimmed logs, and compares them with what is stored.

usage: answers.py [make]

It shares no code with the programs: contents and messages are spelled as docs/FORMATS.md says, and signed by the keys of the seed of zeros
with `bench/two_levels.py`. For each row it tells whether the stored lines `inject` or `message` are those messages; with `make` it writes
these lines into the rows. It ends with 1 if one differs."""

import re
import sys

import two_levels as lms
from programs import TOP, parser_of

# The rows have keys with one tree of height 5.
lms.H, lms.TREE_TYPE = 5, 5
ROWS = TOP / "rows"
COMMAND, REPLY = b"put a 1", b"ok"
ABORT, CERT = 6, 16
REPLICA, CLIENT = lms.u8(0), lms.u8(1)


def u64(n):
    return n.to_bytes(8, "big")


def request(client, stamp):
    return lms.u16(client) + u64(stamp) + lms.u16(len(COMMAND)) + COMMAND


def digest(*requests):
    at = bytes(32)
    for one in requests:
        at = lms.sha(lms.u8(1), at, one)
    return at


def content(code, replica, behind):
    return lms.u8(code) + REPLICA + lms.u16(replica) + lms.u32(1) + behind


def signature(replica, number, text):
    key = lms.key_of(replica)
    sig = lms.signature(*key, number, text, lms.random_of(*key, number))
    return lms.u16(len(sig)) + sig


ANSWER = lms.u16(1) + digest(request(0, 1)) + lms.u8(len(REPLY)) + REPLY


def answers(signers, stamp=1):
    """A certificate of answers to c0's request: each of these replicas signed the answer with stamp 1 as its first text."""
    spec = lms.u16(0) + u64(1) + ANSWER
    signed = (lms.u8(r) + signature(r, 0, content(13, r, spec)) for r in signers)
    return lms.u8(1) + lms.u16(0) + u64(stamp) + ANSWER + lms.u8(len(signers)) + b"".join(signed)


def cert(signers, stamp=1):
    return lms.u8(CERT) + lms.u32(1) + answers(signers, stamp)


def turned(data):
    return data[:-1] + bytes([data[-1] ^ 1])


def signed_abort(code, replica, number, behind):
    text = content(code, replica, behind)
    return lms.u8(ABORT) + text + signature(replica, number, text)


def history(*requests):
    return lms.u16(len(requests)) + b"".join(requests)


def abort(replica, number, *requests, signers):
    """An ABORT with a certificate of answers, or with none if nobody signed one."""
    kept = answers(signers) if signers else lms.u8(0)
    return signed_abort(15, replica, number, history(*requests) + kept)


def whole_abort(replica, number, *requests):
    return signed_abort(6, replica, number, history(*requests))


def trimmed_abort(replica, number, trimmed, *requests):
    """An ABORT of a log of which these first requests are trimmed."""
    front = lms.u16(65_535) + lms.u16(len(trimmed)) + digest(*trimmed)
    return signed_abort(6, replica, number, front + history(*requests))


FIRST, SECOND, OTHER = request(0, 1), request(0, 2), request(1, 1)
# Of each row the messages that it injects or audits, in their order.
MESSAGES = {
    "hostile/a_certificate_of_answers_with_a_doubled_signer.sched": [cert([0, 0, 1]), cert([0, 1]), cert([0, 1, 2])],
    "hostile/a_certificate_of_answers_with_a_turned_bit.sched": [turned(cert([0, 1, 2]))],
    "hostile/a_certificate_of_answers_for_another_stamp.sched": [cert([0, 1, 2], stamp=2)],
    "hostile/an_abort_whose_log_lacks_what_it_keeps.sched": [abort(3, 1, signers=[0, 1, 3]), abort(3, 2, FIRST, signers=[0, 1, 3])],
    "audits/why_of_two_aborts_with_answers.node": [abort(1, 0, FIRST, signers=[0, 1, 2]), abort(1, 1, FIRST, signers=[])],
    "audits/why_of_a_trimmed_log_and_a_whole_one.node": [
        trimmed_abort(1, 0, [FIRST, OTHER], SECOND),
        whole_abort(1, 1, FIRST, OTHER, SECOND),
        trimmed_abort(2, 0, [FIRST, OTHER, SECOND]),
    ],
}


def main():
    parser = parser_of(__doc__)
    parser.add_argument("make", nargs="?", choices=["make"])
    makes = parser.parse_args().make
    status = 0
    for name, messages in MESSAGES.items():
        path = ROWS / name
        text, left = path.read_text(), iter(messages)
        made = re.sub(r"^(inject \S+|message) .*$", lambda found: f"{found[1]} {next(left).hex()}", text, flags=re.MULTILINE)
        same = made == text and next(left, None) is None
        if makes:
            path.write_text(made)
        else:
            print(f"{name}: {'as stored' if same else 'DIFFERS'}")
            status |= not same
    sys.exit(status)


if __name__ == "__main__":
    main()
