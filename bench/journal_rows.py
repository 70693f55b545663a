"""The rows of journals: nodes of the built program with journals, which are ended, killed, torn and refused, over real processes."""

import argparse
import contextlib
import os
import pathlib
import socket
import subprocess
import tempfile
import time

import cluster
from journals import COMMAND, MESSAGE, TIMEOUT, Kept, bodies_at, entry, faults_of, line_of, mark_of, opened, read, spelled
from journals import torn as torn_journals
from programs import PROGRAM, ran

SECONDS = 300
KEYS = ["keys", *"--plan quorum --f 1 --clients 1 --service kv --lms 5 --seed".split(), cluster.SEED, "--party"]
PUT, GET = b"put a 1", b"get a"
NAME = "journal"
NO_DISK, REFUSED = 10, 11
# The digest of the history with the request of stamp 1 of c0, `put a 1`.
DIGEST = "688e05e3250f603fe42468fe71560525868d0b254ba6463c94985b87d2909ac0"
# How many commands a cluster has whose nodes are all killed at once, and after how many replies they are.
COMMANDS, REPLIES = 100, 5
# A journal with so many entries is torn. These came before the replies, so none is long.
ENTRIES = 5


def text_of(party, *commands):
    """The text that sets up a node of this party."""
    return ran([*KEYS, party])[1] + b"".join(b"do %s\n" % command for command in commands) + b"end\n"


def node(base, turns=1, wait=1000, name=NAME, trace=True):
    """The words of a node, which has a journal if there is a name."""
    words = ["node", "--base", base, "--turns", turns, "--wait", wait, *(["--trace"] if trace else []), *(["--journal", name] if name else [])]
    return [str(word) for word in words]


def ended(folder, text, words):
    """How a node ends that runs in this folder: its status, what it writes, and what it says."""
    done = subprocess.run([PROGRAM, *words], input=text, capture_output=True, timeout=SECONDS, cwd=folder)
    return done.returncode, done.stdout, done.stderr


@contextlib.contextmanager
def started(folder, text, words):
    """A node that runs in this folder, and is killed in the end."""
    running = subprocess.Popen([PROGRAM, *words], stdin=subprocess.PIPE, stdout=subprocess.PIPE, stderr=subprocess.PIPE, cwd=folder)
    try:
        running.stdin.write(text)
        running.stdin.close()
        running.stdin = None
        yield running
    finally:
        running.kill()
        running.communicate()


def wait_until(holds):
    """Waits until something holds."""
    end = time.monotonic() + SECONDS
    while not holds():
        if end < time.monotonic():
            raise TimeoutError("what has to come didn't")
        time.sleep(0.001)


def answer(replica):
    """The message in which a replica answers the request of stamp 1 of c0 in instance 1, `put a 1`, with its number 1."""
    head = bytes([3]) + cluster.bytes_of(replica) + (1).to_bytes(4, "big")
    content = head + bytes(2) + (1).to_bytes(8, "big") + (1).to_bytes(2, "big") + bytes.fromhex(DIGEST) + b"\x02ok"
    return b"\x03" + content + cluster.tag_of(replica, "c0", content)


def send(port, sender, number, message):
    """Sends a message of one piece."""
    data = b"\x01" + cluster.bytes_of(sender) + number.to_bytes(8, "big") + (0).to_bytes(2, "big") + (1).to_bytes(2, "big") + message
    with socket.socket(socket.AF_INET, socket.SOCK_DGRAM) as link:
        link.sendto(data, (cluster.HOST, port))


class Differs:
    """What has to be, and what is."""

    def __init__(self):
        self.found = []

    def __call__(self, claim, wanted, got):
        self.found.append((f"journals: {claim}", None if wanted == got else f"{short(got)}, where {short(wanted)} has to be"))


def short(value):
    text = repr(value)
    return text if len(text) <= 300 else f"{text[:300]}.. ({len(text)} characters)"


def alone(folder, differs):
    """A client that nobody answers: ended, started again, and started twice."""
    text, base, path = text_of("c0", PUT, GET), cluster.free_base(), folder / NAME
    first = ended(folder, text, node(base))
    differs("a client alone", (8, b"invoke c0 put a 1\nend 1 4 0 0\n", b"turns spent 2\n"), first)
    kept = spelled([mark_of(text), bytes([COMMAND]) + PUT])
    differs("its journal", kept, path.read_bytes())
    again = ended(folder, text, node(base))
    differs("it goes on, and sends nothing again", (8, b"invoke c0 put a 1\nend 1 0 0 0\n", b"turns spent 2\n"), again)
    differs("nothing more is kept", kept, path.read_bytes())
    path.unlink()
    with started(folder, text, node(base, 2, 60000)):
        wait_until(lambda: len(bodies_at(path)) == 2)
        differs("a second process on one journal", (NO_DISK, b"", b"disk fault\n"), ended(folder, text, node(base)))
    differs("a client that is killed goes on", again, ended(folder, text, node(base)))
    differs("its journal is that of the one that ended", kept, path.read_bytes())


def answered(folder, differs):
    """A client that is killed after its first event. Its replies come to the next process."""
    text, base, path = text_of("c0", PUT), cluster.free_base(), folder / NAME
    with started(folder, text, node(base, 2, 60000)):
        wait_until(lambda: len(bodies_at(path)) == 2)
    replicas = [f"r{r}" for r in range(cluster.REPLICAS)]
    with started(folder, text, node(base, 100, 60000, trace=False)) as client:
        wait_until(lambda: cluster.is_open(base + 100))
        for replica in replicas:
            send(base + 100, replica, 1, answer(replica))
        out, said = client.communicate(timeout=SECONDS)
    differs("replies that come to the next process", (0, b"reply 1 1 1 ok\nend 5 0 0 0\n", b""), (client.returncode, out, said))
    bodies = [mark_of(text), bytes([COMMAND]) + PUT, *(bytes([MESSAGE]) + answer(replica) for replica in replicas)]
    differs("their entries", spelled(bodies), path.read_bytes())
    lines = [*(line_of("c0", body) for body in bodies[1:]), b"reply 1 1 1 ok", b"end 5 0 0 0", b""]
    ready = (0, b"\n".join(lines), b"")
    differs("a client with nothing left ends before its first turn", ready, ended(folder, text, node(base, 2, 60000)))
    differs("and keeps nothing more", spelled(bodies), path.read_bytes())


# Bodies of no event: no code, one that isn't stated, a command or a message that is too short or too long, a timeout with more.
NO_EVENTS = {
    "no bytes": b"",
    "a second mark": bytes(33),
    "code 4": b"\x04",
    "an empty command": bytes([COMMAND]),
    "a command of 129 bytes": bytes([COMMAND]) + b"a" * 129,
    "an empty message": bytes([MESSAGE]),
    "a message of 4194305 bytes": bytes([MESSAGE]) + bytes(4_194_305),
    "a timeout with a byte more": bytes([TIMEOUT, 0]),
}


def refused(folder, differs):
    """Journals that are refused, and stay as they are."""
    text, base, path = text_of("c0", PUT), cluster.free_base(), folder / NAME
    mark, event = mark_of(text), bytes([COMMAND]) + PUT
    firsts = {"another text": mark_of(text_of("c0", GET)), "another party": mark_of(text_of("r0"))}
    firsts |= {"a mark of 31 bytes": mark[:-1], "a mark of 33 bytes": mark + b"\0", "an event first": event, "an empty entry": b""}
    journals = {name: (1, [first, event]) for name, first in firsts.items()}
    journals |= {f"{name} in entry 2": (2, [mark, body]) for name, body in NO_EVENTS.items()}
    journals |= {f"{name} in entry 3": (3, [mark, event, body, b"\x04"]) for name, body in NO_EVENTS.items()}
    for name, (number, bodies) in journals.items():
        path.write_bytes(spelled(bodies))
        wanted = (REFUSED, b"", b"journal refused %d\n" % number), spelled(bodies)
        differs(f"refused, {name}", wanted, (ended(folder, text, node(base)), path.read_bytes()))
    path.write_bytes(spelled([b""]))
    taken = ended(folder, b"x", node(base))
    differs("a bad line comes before a refused journal", (3, b"", b"line 1: bad line\n"), taken)
    with cluster.bound(base + 100):
        differs("a refused journal comes before the link", REFUSED, ended(folder, text, node(base))[0])


def small(folder, differs):
    """Names and files of which no event comes: a client without commands ends before its first turn."""
    text, base = text_of("c0"), cluster.free_base()
    good, empty = (0, b"end 0 0 0 0\n", b""), spelled([mark_of(text)])
    differs("without a journal", good, ended(folder, text, node(base, name=None)))
    differs("nothing is written then", [], os.listdir(folder))
    for name in ("a", "0._-z", "b" * 64):
        differs(f"the name {name}", (good, empty), (ended(folder, text, node(base, name=name)), (folder / name).read_bytes()))
    # Bytes that hold no entry: no gate, a gate that isn't open, an entry without its end.
    for data in (b"", b"\0", b"\1", b"\2", b"\1\0\0", entry(mark_of(text))[:-1], entry(b"abc", b"\0"), b"\0" + b"\1" * 99):
        (folder / NAME).write_bytes(data)
        left = empty + data[len(empty) :]
        differs(f"{data.hex() or 'no bytes'} opens as empty", (good, left), (ended(folder, text, node(base)), (folder / NAME).read_bytes()))
    (folder / "folder").mkdir()
    (folder / "nowhere").symlink_to("folder/missing/file")
    (folder / "full").symlink_to("/dev/full")
    for name in ("folder", "nowhere", "full"):
        differs(f"no journal can be written: {name}", (NO_DISK, b"", b"disk fault\n"), ended(folder, text, node(base, name=name)))
    with cluster.bound(base + 100):
        differs("the disk comes before the link", NO_DISK, ended(folder, text, node(base, name="folder"))[0])


def together(folder, differs):
    """A cluster all of whose nodes are killed at once and started again. Returns the bodies of r0's journal, and r0's text."""
    asked = argparse.Namespace(plan="quorum", clients=1, lms="5", base=cluster.free_base(), quiet=False, wait=2000)
    nodes = Kept(folder, asked)
    parties = [f"r{r}" for r in range(cluster.REPLICAS)]
    try:
        for party in parties:
            nodes.set_up(party)
            nodes.begin(party)
        nodes.set_up("c0", [b"put k%d v" % n for n in range(COMMANDS)])
        nodes.wait_for_ports(60)
        nodes.begin("c0")
        wait_until(lambda: len(nodes.lines_of(b"reply")) >= REPLIES)
        for party in nodes.kill([*parties, "c0"]):
            nodes.begin(party)
        nodes.wait_for(["c0"], SECONDS)
        running = nodes.running()
    finally:
        statuses, said = nodes.stop()
    faults, replies = faults_of(nodes)
    differs("all nodes were killed at once", 5, nodes.kills)
    differs("the client ends, and the replicas go on", (0, parties), (statuses["c0"], running))
    differs("nothing is said", set(), {text for text in said.values() if text})
    differs("the replay of all journals", [], faults)
    differs("each command has its reply", COMMANDS, replies)
    return nodes.bodies("r0"), (nodes.folder / "r0").read_bytes()


def torn(folder, differs, bodies, text):
    """A journal of r0 that is cut at each byte of its last two entries, and one whose last gate isn't open."""
    path, base, whole, cuts = folder / NAME, cluster.free_base(), spelled(bodies), [*torn_journals(bodies)]
    for data in cuts:
        path.write_bytes(data)
        left, _ = read(data)
        lines = [*(line_of("r0", body) for body in left[1:]), b"end %d 0 0 0" % (len(left) - 1), b""]
        got = ended(folder, text, node(base, 1, 1)), path.read_bytes()
        if got != ((0, b"\n".join(lines), b""), opened(data)):
            differs(f"r0's journal of {len(whole)} bytes, cut to {len(data)}", ((0, b"\n".join(lines), b""), opened(data)), got)
            return
    counts = sorted({len(read(data)[0]) for data in cuts})
    differs(f"r0's journal, torn in {len(cuts)} ways", [len(bodies) - 2, len(bodies) - 1, len(bodies)], counts)


def checks():
    """Yields what is looked at, and what is wrong with it; None if nothing is."""
    differs = Differs()
    for part in (small, alone, answered, refused):
        with tempfile.TemporaryDirectory() as folder:
            part(pathlib.Path(folder), differs)
        yield from differs.found
        differs.found.clear()
    with tempfile.TemporaryDirectory() as folder, tempfile.TemporaryDirectory() as other:
        bodies, text = together(folder, differs)
        torn(pathlib.Path(other), differs, bodies[:ENTRIES], text)
    yield from differs.found
