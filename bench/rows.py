#!/usr/bin/env python3
"""Runs the rows on the built programs, and tells which end otherwise than they have to.

usage: rows.py [GROUP..]

The rows are the cases of rows/ (rows/README.md says how they are stored), the schedules of examples/ with their reports, the audits and
the pictures there, clusters of five nodes, nodes with journals, runs in which a call to the outside fails, and the names in
docs/WHERE.md. Each case is run by the built program over streams of its own, and the status and both streams have to be those that are
stored, byte for byte. What a second compiler built is run too, but not on groups that take it long. Storms are run twice. Rows go side by
side on all processors. What is wrong is told with the first line that differs; then each group has a line, and the last line counts all.
The words are the groups that are run; without words all are. The failing calls need a C compiler."""

import argparse
import collections
import concurrent.futures
import contextlib
import gzip
import itertools
import os
import pathlib
import re
import shlex
import signal
import subprocess
import sys
import tempfile
import time

import cluster
import fail_calls
import journal_rows
import where
from programs import TOP

ROWS, EXAMPLES = TOP / "rows", TOP / "examples"
PROGRAMS = ("abstract_bft", "draw", "storm_schedule")
ENDINGS = ("sched", "sched.gz", "words", "node", "node.gz", "out", "err", "status")
# The groups that take seconds a row, for signatures: these run by one build alone.
LONG = ("storms", "limits", "hostile")
SECONDS = 300


class Case:
    """A case of rows/: what a program is given, and how it has to end."""

    def __init__(self, group, name):
        self.group, self.name = group, name

    def part(self, ending):
        """The bytes of the file with this ending. What isn't there is empty."""
        path = ROWS / self.group / f"{self.name}.{ending}"
        return path.read_bytes() if path.exists() else b""

    def words(self):
        """The program and its words."""
        words = self.part("words").decode("utf-8", "surrogateescape")
        return shlex.split(words) or ["abstract_bft", "replay"]

    def given(self):
        packed = self.part("sched.gz") or self.part("node.gz")
        return gzip.decompress(packed) if packed else self.part("sched") or self.part("node")

    def wanted(self):
        return int(self.part("status") or 0), self.part("out"), self.part("err")


def cases():
    """All cases of rows/, by their groups."""
    found = collections.defaultdict(list)
    for path in sorted(ROWS.glob("*/*")):
        name, _, ending = path.name.partition(".")
        if ending in ("sched", "sched.gz", "words"):
            found[path.parent.name].append(Case(path.parent.name, name))
    return found


def difference(wanted, got):
    """How an end differs from the one that is wanted, in words. None if it doesn't."""
    if got == wanted:
        return None
    told = [] if got[0] == wanted[0] else [f"status {got[0]} in place of {wanted[0]}"]
    for stream, stored, written in (("output", wanted[1], got[1]), ("error", wanted[2], got[2])):
        if stored != written:
            stored, written = stored.split(b"\n"), written.split(b"\n")
            same = len(os.path.commonprefix([stored, written]))
            stored, written = (lines[same] if same < len(lines) else None for lines in (stored, written))
            told.append(f"standard {stream}, line {same + 1}: {short(written)} in place of {short(stored)}")
    return "; ".join(told)


def short(line):
    return "nothing" if line is None else repr(line[:120].decode("utf-8", "backslashreplace"))


def builds(name, group=""):
    """The built program of this name, and the one of a second compiler if it is there and the group doesn't take it long."""
    folder = TOP / "crates" / name / "out"
    paths = [folder / name] if group in LONG else [folder / name, folder / f"{name}.by-rattle"]
    return [path for path in paths if os.access(path, os.X_OK)]


class Run:
    """One run of a built program, and how it has to end."""

    def __init__(self, group, name, program, words, given, wanted):
        self.group, self.name = group, f"{group}/{name} by {program.name}"
        self.program, self.words, self.given, self.wanted = program, words, given, wanted

    def difference(self):
        """How it ends otherwise. None if it doesn't."""
        try:
            # Ports are looked for when they are wanted: those that were free long before may be taken.
            words = [str(cluster.free_base()) if word == "{base}" else word for word in self.words]
            done = subprocess.run([self.program, *words], input=self.given, capture_output=True, timeout=SECONDS)
        except subprocess.TimeoutExpired:
            return f"it didn't end in {SECONDS} seconds"
        except OSError as fault:
            return str(fault)
        return difference(self.wanted, (done.returncode, done.stdout, done.stderr))


def case_runs(group, found):
    for case in found:
        given, wanted = case.given(), case.wanted()
        for program in builds(case.words()[0], group):
            for _ in range(2 if group == "storms" else 1):
                # Each run has ports of its own.
                yield Run(group, case.name, program, case.words()[1:], given, wanted)


def example_runs():
    for path in sorted(EXAMPLES.rglob("*.sched")):
        report = path.with_suffix(".report").read_bytes()
        wanted = 0 if b"\npremise held\n" in report else 1, report, b""
        for program in builds("abstract_bft"):
            yield Run("examples", path.stem, program, ["replay"], path.read_bytes(), wanted)


def audit_runs():
    """The audits of examples/audit."""
    for path in sorted((EXAMPLES / "audit").glob("*.audit")):
        for words, ending in ((["audit"], ".accused"), (["audit", "--why"], ".why")):
            report = path.with_suffix(ending)
            for program in builds("abstract_bft"):
                yield Run("examples", report.name, program, words, path.read_bytes(), (1, report.read_bytes(), b""))


def picture_runs():
    for path in sorted(EXAMPLES.rglob("*.svg")):
        schedule = path.with_suffix(".sched").read_bytes()
        for program in builds("draw"):
            yield Run("pictures", path.stem, program, [], schedule, (0, path.read_bytes(), b""))


def way_checks():
    """Whether the input of an audit is what audit_input.py makes of the key text and of the trace that stand beside it."""
    folder = EXAMPLES / "audit"
    made = subprocess.run([sys.executable, TOP / "bench" / "audit_input.py", folder / "c1.keys", folder / "c1.trace"], capture_output=True)
    same = (made.returncode, made.stdout) == (0, (folder / "twins.audit").read_bytes())
    yield "examples/audit: the input made of the trace", None if same else "it isn't the one that is stored"


COMMANDS = [b"put color blue", b"get color", b"cas color blue green"]
REPLIES = [(1, 1, 1, "ok"), (2, 1, 2, "val blue"), (3, 1, 3, "ok")]


def cluster_claims():
    """What has to hold of a cluster of five nodes of Quorum over UDP, whose client has three commands: whether it does, and what is."""
    asked = argparse.Namespace(plan="quorum", clients=1, lms="5", base=cluster.free_base(), quiet=False)
    with tempfile.TemporaryDirectory() as folder:
        nodes = cluster.Cluster(folder, asked)
        try:
            replicas = [f"r{r}" for r in range(cluster.REPLICAS)]
            for party in (*replicas, "c0"):
                nodes.set_up(party, COMMANDS if party == "c0" else ())
            for replica in replicas:
                nodes.start(replica, 200, 50)
            nodes.wait_for_ports(60)
            nodes.start("c0", 40, 2000)
            for node in nodes.nodes.values():
                node.wait(SECONDS)
        finally:
            statuses, said = nodes.stop()
        report, fault = nodes.replayed()
        invoked = [b"invoke c0 " + command for command in COMMANDS]
        yield "each node ends with status 0", set(statuses.values()) == {0}, statuses
        yield "nothing is said on standard error", not any(said.values()), said
        yield "the commands are invoked one after the other", nodes.lines_of(b"invoke") == invoked, nodes.lines_of(b"invoke")
        yield "the replies are those of the commands", nodes.replies() == REPLIES, nodes.replies()
        yield "each node writes a last line", len(nodes.lines_of(b"end")) == 5, nodes.lines_of(b"end")
        yield "the replay of all traces commits the same", cluster.commits_of(report) == REPLIES, report
        yield "its premises held", "premise held" in report and not fault, report[-2:] + [fault]


@contextlib.contextmanager
def gathered(**asked):
    """A cluster by the command `cluster`, with the same commands."""
    run = cluster.Gathered(asked.pop("base", None) or cluster.free_base(), COMMANDS, **asked)
    try:
        yield run
    finally:
        run.stop()


def gathered_claims():
    """The same of clusters that the command `cluster` runs: one that nothing disturbs, one whose replica r2 has no port, one whose r2 is
    killed, and one that is interrupted. A client may begin before the replicas are there, so its turns may be too few."""
    with gathered(turns=200) as run:
        told = [cluster.words_of(pid) for pid in run.nodes()]
        status, statuses, lines, said = run.ended()
    words = cluster.spelled([str(cluster.PROGRAM), *run.node_words])
    # A node that has ended has no words.
    yield "the words of each node are those of a node", set(told) - {b""} == {words}, told
    client = statuses.pop("c0", None)
    yield "each replica ends with status 0", statuses == {"r0": "0", "r1": "0", "r2": "0", "r3": "0"}, statuses
    yield "the client ends with 0 or 8, and the command with 0 or 1", (client, status) in (("0", 0), ("8", 1)), (client, status)
    replies = [" ".join(line.split(" ")[4:]) for line in lines if line.startswith("reply ")]
    wanted = [reply for _, _, _, reply in REPLIES]
    good = replies == wanted[: len(replies)] and (client == "8" or replies == wanted)
    yield "the client's replies are those of the commands", good, lines
    yield "nothing is said but by the client", said == ("" if client == "0" else f"turns spent {3 - len(replies)}\n"), said

    # With few turns a client may end before the replicas are there; with many it doesn't.
    for turns in (200, 1000):
        with gathered(turns=turns, every=1) as run:
            status, statuses, lines, said = run.ended()
        if status != 1:
            break
    replies = [" ".join(line.split(" ")[4:]) for line in lines if line.startswith("reply ")]
    yield "with checkpoints all nodes end well, and the replies are the same", (status, replies) == (0, wanted), (status, statuses, lines, said)

    base = cluster.free_base()
    with cluster.bound(base + 2), gathered(base=base) as run:
        status, statuses, lines, said = run.ended()
    good = (status, statuses.get("r2")) == (1, "6") and "link fault\n" in said
    yield "a replica without a port ends with 6", good, (status, statuses, said)

    # Its nodes are there for as long as a busy machine takes to see them all.
    with gathered(turns=400) as run:
        os.kill(run.nodes()[2], signal.SIGKILL)
        status, statuses, lines, said = run.ended()
    good = (status, statuses.get("r2")) == (12, "none") and said.endswith("child fault\n")
    yield "a replica that is killed has no status", good, (status, statuses, said)

    with gathered(turns=100_000) as run:
        pids = [run.process.pid, *run.nodes()]
        os.killpg(run.process.pid, signal.SIGINT)
        run.process.wait(SECONDS)
        end = time.monotonic() + 10
        while any(map(cluster.is_there, pids)) and time.monotonic() < end:
            time.sleep(0.01)
        left = [pid for pid in pids if cluster.is_there(pid)]
    yield "an interrupt ends all nodes", not left, left


def cluster_checks():
    for claim, good, found in itertools.chain(cluster_claims(), gathered_claims()):
        yield f"cluster: {claim}", None if good else f"not so: {found}"


def call_checks():
    with tempfile.TemporaryDirectory() as folder:
        yield from fail_calls.tried(folder)


def is_part(name, there):
    """Whether a file of this name is part of one of these cases."""
    stem, _, ending = name.partition(".")
    return stem in there and ending in ENDINGS


def table_checks(found):
    """Whether the tables of rows/README.md name each case once, and nothing stands beside the cases."""
    text = (ROWS / "README.md").read_text()
    for group, section in re.findall(r"^## (\w+)\n(.*?)(?=^## |\Z)", text, re.MULTILINE | re.DOTALL):
        told = collections.Counter(re.findall(r"^\| `(\w+)` \|", section, re.MULTILINE))
        there = collections.Counter(case.name for case in found.pop(group, []))
        differ = sorted(((told - there) + (there - told)).keys())
        yield f"rows/README.md, {group}", f"the table and the folder differ: {', '.join(differ)}" if differ else None
        strays = [path.name for path in (ROWS / group).iterdir() if not is_part(path.name, there)]
        yield f"rows/{group}", f"files of no case: {', '.join(strays)}" if strays else None
    for group in found:
        yield f"rows/README.md, {group}", "this folder has no table"


def runs():
    """All runs. The longest come first, so that the others fill the processors beside them."""
    found = cases()
    for group in sorted(found, key=lambda group: (group not in LONG, group)):
        yield from case_runs(group, found[group])
    yield from example_runs()
    yield from audit_runs()
    yield from picture_runs()


def answered(checks):
    """The answers of checks. What stops them is one more, which fails."""
    answers = []
    try:
        for answer in checks:
            answers.append(answer)
    except Exception as fault:
        answers.append(("the rest", f"{type(fault).__name__}: {fault}"))
    return answers


def checked(names):
    """Yields group, name and difference of all that is run."""
    checks = {"tables": table_checks(cases()), "where": where.checks(), "cluster": cluster_checks(), "calls": call_checks(), "way": way_checks()}
    checks["journals"] = journal_rows.checks()
    with concurrent.futures.ThreadPoolExecutor(os.cpu_count() + len(checks)) as lanes:
        several = {group: lanes.submit(answered, them) for group, them in checks.items() if not names or group in names}
        chosen = [run for run in runs() if not names or run.group in names]
        for run, differs in zip(chosen, lanes.map(Run.difference, chosen)):
            yield run.group, run.name, differs
        for group, answers in several.items():
            for name, differs in answers.result():
                yield group, name, differs


def main():
    parser = argparse.ArgumentParser(description=__doc__, formatter_class=argparse.RawDescriptionHelpFormatter)
    parser.add_argument("groups", nargs="*")
    names = parser.parse_args().groups
    missing = [name for name in PROGRAMS if not builds(name)]
    if missing:
        sys.exit(f"rows: not built: {', '.join(missing)}; ./build proves and builds the programs")
    counts = collections.defaultdict(collections.Counter)
    for group, name, differs in checked(names):
        counts[group][differs is None] += 1
        if differs is not None:
            print(f"FAILED {name}: {differs}", flush=True)
    for group, count in counts.items():
        print(f"{group}: {count[True]} passed, {count[False]} failed")
    total = sum(counts.values(), collections.Counter())
    print(f"{total[True]} passed, {total[False]} failed")
    sys.exit(0 if total[True] and not total[False] else 1)


if __name__ == "__main__":
    main()
