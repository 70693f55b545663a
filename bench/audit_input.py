#!/usr/bin/env python3
"""Makes the input of `abstract_bft audit` from a key text and from traces of nodes.

usage: audit_input.py KEYS [TRACE..]

KEYS is the key text of any party of the cluster, or the text that sets up its node: f, the line `lms` and the public keys are taken from it.
A TRACE is what a node wrote with `--trace`, or any schedule: the bytes of each line `inject` are a message. Each message stands in the
input once, in the order in which it first came. Without a TRACE the traces come from standard input. The input goes to standard output:

    bench/audit_input.py r0.keys r0.trace c0.trace | ./abstract_bft audit"""

import sys


def parts(text):
    """The lines of a key text that an audit has too: f, the line `lms` and the public keys."""
    lines = text.splitlines()
    if lines[:1] not in (["keys 1"], ["keys 2"], ["keys 3"]):
        sys.exit("audit_input: the first file is no key text")
    return [line for word in ("f ", "lms ", "public ") for line in lines if line.startswith(word)]


def messages(traces):
    """The bytes of each message in hexadecimal digits, each once."""
    found = {}
    for trace in traces:
        for line in trace:
            words = line.split()
            if len(words) == 3 and words[0] == "inject":
                found[words[2]] = None
    return found


def main():
    if len(sys.argv) < 2 or sys.argv[1].startswith("-"):
        sys.exit(__doc__)
    with open(sys.argv[1]) as keys:
        head = parts(keys.read())
    found = messages(open(name) for name in sys.argv[2:]) if sys.argv[2:] else messages([sys.stdin])
    print("\n".join(["audit 1", *head, *(f"message {digits}" for digits in found), "end"]))


if __name__ == "__main__":
    main()
