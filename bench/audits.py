#!/usr/bin/env python3
"""Audits messages by code of its own, and compares what it tells with what is stored.

usage: audits.py [--why] [FILE]

It shares no code with the programs: it reads messages by the grammar of docs/FORMATS.md, verifies signatures by RFC 8554 as the standard
words it, and tells who contradicts itself. With a FILE (`-` for standard input) it audits that text, and writes the report. With `--why`
lines for each of two contents stand behind each accusation: `why N DIGEST`, with the number of the first message that states it, from 1, and
the SHA-256 digest of its bytes; how many first entries of an ABORT's log are trimmed, if any, with their digest, and the others, as a report
spells them; or the digest that a PREPARE states. Without a FILE it goes through the cases of rows/audits that have a report and through
examples/audit, and tells which of the stored reports differ from its own; the status is then 1 if one does. It takes some seconds."""

import hashlib
import shlex
import sys

import two_levels as lms
from programs import TOP, parser_of

HEIGHTS = {5: 5, 6: 10}
LENGTHS = (2348, 2508, 5076)
# What stands in place of a count where the first entries are trimmed.
TRIMMED = 65535
# The bytes of a public key in two levels, whose trees have height 10.
TWO_LEVELS = 60


class Bad(Exception):
    """The bytes are no message."""


class Bytes:
    """Bytes that are read from the front."""

    def __init__(self, data):
        self.data, self.at = data, 0

    def take(self, n):
        if len(self.data) - self.at < n:
            raise Bad
        self.at += n
        return self.data[self.at - n : self.at]

    def number(self, size, low=0, high=None):
        n = int.from_bytes(self.take(size), "big")
        if n < low or (high is not None and n > high):
            raise Bad
        return n

    def since(self, start):
        return self.data[start : self.at]


def party(b):
    kind = b.number(1, 0, 1)
    return ("r", "c")[kind], b.number(2, 0, (6, 15)[kind])


def request(b):
    client, stamp = b.number(2, 0, 15), b.number(8, 1)
    b.take(b.number(2, 1, 128))
    return client, stamp


def entries(b, count):
    last, found = {}, []
    for _ in range(count):
        client, stamp = request(b)
        if stamp <= last.get(client, 0):
            raise Bad
        last[client] = stamp
        found.append((client, stamp))
    return found


def history(b):
    return entries(b, b.number(2, 0, 1024))


def log(b):
    """A log, of which the first entries may be trimmed: how many are, with their digest, and the others."""
    trimmed, count = None, b.number(2)
    if count == TRIMMED:
        trimmed = b.number(2, 1, 65535), b.take(32)
        count = b.number(2, 0, 65535 - trimmed[0])
    if count > 1024:
        raise Bad
    return trimmed, entries(b, count)


def listed(b, low, high, item):
    return [item(b) for _ in range(b.number(1, low, high))]


def slot_of(b):
    return b.number(4), b.number(1, 0, 16), b.take(32)


def answer(b):
    """A client's stamp, a number, a digest and a reply."""
    return b.number(2, 0, 15), b.number(8, 1), b.number(2, 1, 65535), b.take(32), b.take(b.number(1, 0, 72))


def answers(b):
    """A certificate of answers."""
    answer(b)
    listed(b, 1, 7, lambda b: (b.number(1, 0, 6), signature(b)))


def log_and_answers(b):
    """A history, and a certificate of answers if there is one."""
    found = history(b)
    if b.number(1, 0, 1):
        answers(b)
    return None, found


BEHIND = {
    1: request,
    2: lambda b: (b.number(2, 1, 65535), request(b)),
    3: answer,
    4: lambda b: (b.number(2, 0, 15), b.number(8, 1), b.number(2, 1, 65535), b.take(32)),
    5: lambda b: None,
    6: log,
    7: slot_of,
    8: slot_of,
    9: slot_of,
    10: lambda b: listed(b, 0, 17, lambda b: (b.number(4), b.take(32))),
    11: lambda b: None,
    12: lambda b: (b.number(2, 1, 65535), b.take(32)),
    13: answer,
    14: lambda b: (b.number(2, 0, 15), b.number(8, 1), b.number(2, 1, 65535), b.take(32)),
    15: log_and_answers,
}
# The codes of what a stopped replica states.
STOPS = (6, 15)


class Content:
    """What a party states, with its bytes."""

    def __init__(self, b, *codes):
        start = b.at
        code = b.number(1)
        if code not in codes:
            raise Bad
        self.code, self.maker, self.instance = code, party(b), b.number(4, 1)
        # A view change and a new view name their view before what else they have.
        self.view = b.number(4) if code in (10, 11) else None
        self.rest = BEHIND[code](b)
        if self.maker[0] != ("c" if code in (1, 5) else "r") or (code == 1 and self.maker[1] != self.rest[0]):
            raise Bad
        self.text = b.since(start)


def signature(b):
    length = b.number(2)
    if length not in LENGTHS:
        raise Bad
    return b.take(length)


def signed(*codes):
    def read(b):
        content = Content(b, *codes)
        return content, signature(b)

    return read


class Prepared:
    """A PREPARE that a view change leads to."""

    def __init__(self, replica, change, slot, entry):
        view, digest = entry
        self.code, self.maker, self.instance, self.rest = 8, ("r", replica), change.instance, (view, slot, digest)
        self.text = b"\x08\0" + lms.u16(replica) + lms.u32(self.instance) + lms.u32(view) + lms.u8(slot) + digest


def change(b):
    """The statements of a view change."""
    content, sig = signed(10)(b)
    if content.rest:
        history(b)
        for _ in content.rest[1:]:
            request(b)
    found = [(content, sig)]
    for slot, entry in enumerate(content.rest):
        for replica, sig in listed(b, 1, 7, lambda b: (b.number(1, 0, 6), signature(b))):
            found.append((Prepared(replica, content, slot, entry), sig))
    return found


def tags_of(b):
    replicas = [(b.number(1, 0, 6), b.take(32))[0] for _ in range(b.number(1, 1, 7))]
    if sorted(set(replicas)) != replicas:
        raise Bad


def pre_prepare(b):
    content = Content(b, 7)
    b.take(32)
    if content.rest[1] == 0:
        return listed(b, 0, 7, signed(*STOPS))
    request(b)
    b.take(32)
    return []


def chain(b):
    b.number(4, 1)
    request(b)
    b.number(2, 1, 65535)
    b.take(32)
    if b.number(1, 0, 1):
        b.take(b.number(1, 0, 72))
    listed(b, 0, 64, lambda b: (party(b), party(b), b.take(32)))


def nothing(read):
    def statements(b):
        read(b)
        return []

    return statements


MESSAGES = {
    1: nothing(lambda b: (Content(b, 1), tags_of(b))),
    2: nothing(lambda b: (Content(b, 2), b.take(64))),
    3: nothing(lambda b: (Content(b, 3), b.take(32))),
    4: nothing(chain),
    5: nothing(lambda b: (Content(b, 5), b.take(32))),
    6: lambda b: [signed(*STOPS)(b)],
    7: lambda b: listed(b, 1, 7, signed(*STOPS)),
    8: pre_prepare,
    9: lambda b: [signed(8)(b)],
    10: nothing(lambda b: (Content(b, 9), b.take(32))),
    11: change,
    12: lambda b: (Content(b, 11), b.take(32)) and sum(listed(b, 1, 7, change), []),
    13: nothing(lambda b: (Content(b, 12), b.take(32))),
    14: nothing(lambda b: (Content(b, 14), b.take(32))),
    15: lambda b: [signed(13)(b)],
    16: nothing(lambda b: (b.number(4, 1), b.number(1, 1, 1), answers(b))),
}


def statements_of(data):
    """All that is signed in a message."""
    b = Bytes(data)
    code = b.number(1)
    if code not in MESSAGES:
        raise Bad
    found = MESSAGES[code](b)
    if b.at != len(data):
        raise Bad
    return found


def verifies(key, text, sig):
    """Section 5.4.2 of RFC 8554 for the height that the key names, or section 6.3 for a key in two levels."""
    lms.TREE_TYPE = 6 if len(key) == TWO_LEVELS else int.from_bytes(key[:4], "big")
    lms.H = HEIGHTS.get(lms.TREE_TYPE, 0)
    lms.SIG_LEN = 4 + lms.ONCE_LEN + 4 + lms.N * lms.H
    if len(key) == TWO_LEVELS:
        return lms.two_level_verifies(key, text, sig)
    return lms.H and lms.verifies(key, text, sig)


def subject(content):
    """Of what a correct replica makes one statement: an order among them, and its words."""
    r, i = content.maker[1], content.instance
    if content.code in STOPS:
        return (r, 0, i), f"accuse r{r} abort {i}"
    view, slot, _ = content.rest
    return (r, 1, i, view, slot), f"accuse r{r} prepare {i} {view} {slot}"


def words(content):
    """What a content says, a line each."""
    if content.code not in STOPS:
        return [f"digest {content.rest[2].hex()}"]
    trimmed, behind = content.rest
    front = [f"trimmed {trimmed[0]} {trimmed[1].hex()}"] if trimmed else []
    return [*front, f"log r{content.maker[1]} {content.instance} " + (",".join(f"c{c}.{s}" for c, s in behind) or "-")]


class Audit:
    """The messages of a text, and what was found in them."""

    def __init__(self, text):
        lines = text.decode().splitlines()
        self.keys = [bytes.fromhex(line.split()[2]) for line in lines if line.startswith("public ")]
        self.messages = [bytes.fromhex(line.split()[1]) for line in lines if line.startswith("message ")]
        self.bad, self.found, self.tried = 0, {}, {}
        for n, data in enumerate(self.messages, 1):
            try:
                for content, sig in statements_of(data):
                    self.hear(n, content, sig)
            except Bad:
                self.bad += 1

    def hear(self, n, content, sig):
        r = content.maker[1]
        if content.code not in (*STOPS, 8) or r >= len(self.keys):
            return
        tried = (r, content.text, sig)
        if tried not in self.tried:
            self.tried[tried] = verifies(self.keys[r], content.text, sig)
        if self.tried[tried]:
            # Of each subject the first message of each different content, in their order.
            self.found.setdefault(subject(content), {}).setdefault(content.text, (n, content))

    def report(self, why=False):
        told = []
        for (_, accusation), contents in sorted(self.found.items(), key=lambda found: found[0][0]):
            if len(contents) < 2:
                continue
            told.append(accusation)
            for n, content in list(contents.values())[:2] if why else ():
                told += [f"why {n} {hashlib.sha256(content.text).hexdigest()}", *words(content)]
        status = 1 if told else 0
        told += [f"messages {len(self.messages)}", f"bad {self.bad}", "end"]
        return status, "".join(line + "\n" for line in told).encode()


def stored():
    """Each text that has a report, the words of its case, and its report."""
    for path in sorted((TOP / "rows" / "audits").glob("*.out")):
        text = path.with_suffix(".node")
        if text.exists():
            yield text, shlex.split(path.with_suffix(".words").read_text()), path.read_bytes()
    for path in sorted((TOP / "examples" / "audit").glob("*.audit")):
        yield path, ["abstract_bft", "audit"], path.with_suffix(".accused").read_bytes()
        yield path, ["abstract_bft", "audit", "--why"], path.with_suffix(".why").read_bytes()


def main():
    parser = parser_of(__doc__)
    parser.add_argument("--why", action="store_true")
    parser.add_argument("file", nargs="?")
    asked = parser.parse_args()
    if asked.file:
        text = sys.stdin.buffer.read() if asked.file == "-" else open(asked.file, "rb").read()
        status, report = Audit(text).report(asked.why)
        sys.stdout.buffer.write(report)
        sys.exit(status)
    tried, differ = 0, 0
    for text, case, report in stored():
        tried += 1
        if Audit(text.read_bytes()).report("--why" in case)[1] != report:
            differ += 1
            print(f"differs: {text.relative_to(TOP)} {' '.join(case[1:])}")
    print(f"{tried} reports, {differ} differ")
    sys.exit(differ > 0)


if __name__ == "__main__":
    main()
