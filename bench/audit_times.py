#!/usr/bin/env python3
"""Times audits: of 10,000 messages of 2 kB with a signature each, and of 64 MiB of input.

usage: audit_times.py [--messages N]

The messages are ABORTs of four replicas, with signatures of height 5 that this script makes by code of its own (twins.py); making 10,000
takes it a while. Four inputs have N messages each: all are different; all are one; all are one with a wrong signature; and all are
different and wrong. A fifth has 64 MiB of bytes that are no messages. It prints the seconds of processor time and the peak memory of each,
and the reports are checked."""

import resource

import two_levels as lms
import twins
from programs import need, parser_of, ran
from timing import processor_time

REPLICAS = 4
# 64 MiB, in lines of 4 MiB and less.
MOST = 67_108_864


def abort(number, wrong=False):
    """An ABORT of its own number, signed by a leaf that is used again and again."""
    replica, instance = number % REPLICAS, 1 + number // REPLICAS
    name, seed = twins.tree_of(replica)
    text = lms.u8(6) + twins.of_party("r", replica) + lms.u32(instance) + lms.u16(1) + twins.request(0)
    sig = lms.signature(name, seed, 0, text, lms.random_of(name, seed, 0))
    sig = sig[:-1] + lms.u8(sig[-1] ^ wrong)
    return (b"\x06" + text + lms.u16(len(sig)) + sig).hex()


def head():
    keys = (f"public r{replica} {lms.public(*twins.tree_of(replica)).hex()}" for replica in range(REPLICAS))
    return "\n".join(["audit 1", "f 1", f"lms {twins.HEIGHT}", *keys, ""])


def time_audit(name, digits, bad):
    """Audits these messages, and prints what it took."""
    text = (head() + "".join(f"message {message}\n" for message in digits) + "end\n").encode()
    begin = processor_time()
    status, report, said = ran(["audit"], text)
    seconds = processor_time() - begin
    if (status, report) != (0, f"messages {len(digits)}\nbad {bad}\nend\n".encode()):
        raise SystemExit(f"{name}: status {status}, {said.decode().strip() or report[:200]}")
    peak = resource.getrusage(resource.RUSAGE_CHILDREN).ru_maxrss
    print(f"{name}: {len(text) / 1e6:.1f} MB, {seconds:.2f} s, peak so far {peak} KiB", flush=True)


def main():
    parser = parser_of(__doc__)
    parser.add_argument("--messages", type=int, default=10_000)
    count = parser.parse_args().messages
    need("abstract_bft")
    lms.H, lms.TREE_TYPE = twins.HEIGHT, twins.TREE_TYPE
    time_audit("one message again and again", [abort(0)] * count, 0)
    time_audit("one wrong signature again and again", [abort(0, wrong=True)] * count, 0)
    time_audit("different messages", [abort(number) for number in range(count)], 0)
    time_audit("different wrong signatures", [abort(number, wrong=True) for number in range(count)], 0)
    line = len("message \n")
    full, rest = divmod(MOST - len(head()) - len("end\n"), line + 2 * 4_194_304)
    lines = ["f" * (2 * 4_194_304)] * full + ["f" * ((rest - line) // 2 * 2)]
    time_audit("64 MiB of no messages", lines, len(lines))


if __name__ == "__main__":
    main()
