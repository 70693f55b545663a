#!/usr/bin/env python3
"""Replays storms of all seven plans, and checks their commits.

usage: storm_commits.py [--seconds S] [--events E] [--seed N] [--no-summary]

Seed by seed from N on (1), until S seconds are over (an hour), each plan has a storm of E events (5,000) with one faulty replica
allowed for, and one with two; the number of clients goes by the seed. Of each storm the schedule is written (`storm_schedule`) and
replayed (`abstract_bft replay`). The report is compared with the summary of `abstract_bft storm`, but for `--no-summary`, and its
commits are checked with a plain model of the service `kv`, as docs/ORDER.md says what must hold of them; a storm has no faulty
party. What is otherwise is printed, and ends the script with 1. After each seed it prints how many storms, events and commits there
were so far."""

import collections
import functools
import hashlib
import itertools
import sys

from programs import need, path_of, ran
from storms import drawn, parser_of_storms

WRITER = path_of("storm_schedule")
LIMIT = 7
KINDS = {"azyzzyva": ("zlight", "backup"), "zcert": ("zcert", "backup"), "aliph": ("quorum", "chain", "backup")}
MOST_KEYS = 65536


def kind_of(plan, instance):
    """The protocol of an instance, counted from 1."""
    kinds = KINDS.get(plan, (plan,))
    return kinds[(instance - 1) % len(kinds)]


def numbers(words):
    return [int(word.lstrip("cr")) for word in words]


def entries_of(text):
    """The requests of a history, each by its client and its stamp."""
    if text == "-":
        return []
    return [tuple(numbers(entry.split("."))) for entry in text.split(",")]


# ---- the service


def put(store, command):
    """The reply of `kv` to a command of a storm, which puts a value."""
    word, key, value = command.split(" ")
    assert word == "put"
    if key not in store and len(store) == MOST_KEYS:
        return "full"
    store[key] = value
    return "ok"


def replies_in(history, commands):
    """The reply to each request of a history."""
    store = {}
    return [put(store, commands[entry]) for entry in history]


# ---- histories


def digests_of(history, commands):
    """The digests of a history's beginnings, from the empty one on."""
    digests = [bytes(32)]
    for client, stamp in history:
        command = commands[client, stamp].encode()
        request = client.to_bytes(2, "big") + stamp.to_bytes(8, "big") + len(command).to_bytes(2, "big") + command
        digests.append(hashlib.sha256(b"\1" + digests[-1] + request).digest())
    return digests


class History:
    """The list of requests of a line of the report."""

    def __init__(self, line, instance, entries, commands):
        self.line = line
        self.instance = instance
        self.entries = entries
        self.commands = commands

    @functools.cached_property
    def digests(self):
        return digests_of(self.entries, self.commands)

    def covers(self, number):
        return number <= len(self.entries)


# ---- a report


class Report:
    """The lines of a report, by their first words, with the commands of the schedule."""

    def __init__(self, text, schedule):
        self.lines = {}
        for line in text.splitlines():
            word, rest = line.split(" ", 1)
            self.lines.setdefault(word, []).append(rest)
        self.commands, asked = commands_of(schedule)
        first = {}
        for words in self.of("invoked"):
            event, client, instance, stamp = numbers(words)
            first.setdefault((client, stamp), (event, instance))
        self.invoked = {request: instance for request, (_, instance) in first.items()}
        self.is_of_schedule = asked == {request: event for request, (event, _) in first.items()}

    def of(self, word):
        return [line.split(" ") for line in self.lines.get(word, [])]

    def histories(self, word):
        """The histories of `log`, `cert` or `init` lines."""
        return [
            History(" ".join([word, *words[:-1]]), int(words[-2]), entries_of(words[-1]), self.commands) for words in self.of(word)
        ]

    def knows_all(self):
        """Whether the requests that were invoked, and no others, are those of the schedule, each in its event."""
        histories = itertools.chain(*(self.histories(word) for word in ("log", "cert", "init")))
        return self.is_of_schedule and all(request in self.commands for history in histories for request in history.entries)


def commands_of(schedule):
    """The command of each request of a schedule, and the event in which it is given to its client."""
    lines = schedule.splitlines()
    stamps = {}
    commands = {}
    asked = {}
    for event, line in enumerate(lines[lines.index("run") + 1 : -1], 1):
        words = line.split(" ", 2)
        if words[0] == "invoke":
            client = int(words[1].lstrip("c"))
            stamps[client] = stamps.get(client, 0) + 1
            commands[client, stamps[client]] = words[2]
            asked[client, stamps[client]] = event
    return commands, asked


def summary_of(report):
    """The lines of the summary that a storm with this report has."""
    (end,) = report.of("end")
    counts = [("events", end[0]), ("packets", end[1])]
    counts += [(name + "s" * (name != "spent"), len(report.of(name))) for name in ("commit", "cert", "init", "spent")]
    counts.append(("top", max(log.instance for log in report.histories("log"))))
    return [f"{name} {count}" for name, count in counts] + [f"premise {line}" for line in report.lines["premise"]]


# ---- commits


class Commit:
    """A line `commit`. Its number is the length of its history, in which its request stands last, or lower if it stood in the base."""

    def __init__(self, words):
        self.line = "commit " + " ".join(words)
        self.client, self.instance, self.stamp, self.number = numbers(words[1:5])
        self.request = (self.client, self.stamp)
        self.reply = " ".join(words[5:])


class Checker:
    """What is wrong with the commits of one report."""

    def __init__(self, report, plan):
        self.report = report
        self.plan = plan
        self.commits = [Commit(words) for words in report.of("commit")]
        self.histories = {word: report.histories(word) for word in ("log", "cert", "init")}
        self.faults = []

    def expect(self, holds, *what):
        if not holds:
            self.faults.append(": ".join(what))

    def later(self, commit):
        """The histories that are bound to the commit's, with the words of their lines.

        These are the certificates and the last logs of its instance and of later ones, and what later ones were entered with. A
        log of a lower instance may hold what was never committed.
        """
        for word, histories in self.histories.items():
            for history in histories:
                if history.instance > commit.instance or (history.instance == commit.instance and word != "init"):
                    yield word, history

    def may_be_shorter(self, word, history):
        """A log of Backup may be behind: f + 1 replicas answer for all, and it is empty until the base is executed."""
        return word == "log" and kind_of(self.plan, history.instance) == "backup"

    def check_history(self, commit):
        """The commit's history begins all that are bound to it. Returns it, by the first of them that covers it."""
        bound = list(self.later(commit))
        found = next((history for _, history in bound if history.covers(commit.number)), None)
        if found is None:
            self.expect(False, commit.line, "no history covers it")
            return None
        for word, history in bound:
            shared = min(commit.number, len(history.entries))
            self.expect(history.digests[shared] == found.digests[shared], commit.line, "another history", history.line)
            if not self.may_be_shorter(word, history):
                self.expect(history.covers(commit.number), commit.line, "a shorter history", history.line)
        return found

    def check_request(self, commit, history):
        """The request stands in the commit's history, as only requests that were invoked do, and its reply is the service's."""
        self.expect(len(set(history)) == len(history), commit.line, "a request stands twice in its history")
        for request in history:
            self.expect(self.report.invoked[request] <= commit.instance, commit.line, f"{request} was invoked later")
        if commit.request not in history:
            self.expect(False, commit.line, "its request isn't in its history")
            return
        place = history.index(commit.request) + 1
        bases = [len(init.entries) for init in self.histories["init"] if init.instance == commit.instance]
        self.expect(place == commit.number or commit.number in bases, commit.line, f"its request has place {place}")
        self.expect(commit.reply == replies_in(history, self.report.commands)[place - 1], commit.line, "its reply isn't the service's")

    def check(self):
        """All that is wrong."""
        digests = {}
        stamps = {}
        for commit in self.commits:
            found = self.check_history(commit)
            if found is not None:
                self.check_request(commit, found.entries[: commit.number])
                digest = found.digests[commit.number]
                self.expect(digests.setdefault(commit.number, digest) == digest, commit.line, "another history has its number")
            self.expect(stamps.get(commit.client, 0) < commit.stamp, commit.line, "its stamp doesn't rise")
            stamps[commit.client] = commit.stamp
        self.check_numbers()
        return self.faults

    def check_numbers(self):
        """No commit has a lower number than one of a lower instance."""
        highest = 0
        by_instance = sorted(self.commits, key=lambda commit: (commit.instance, commit.number))
        for _, commits in itertools.groupby(by_instance, key=lambda commit: commit.instance):
            numbered = list(commits)
            self.expect(highest <= numbered[0].number, numbered[0].line, "a lower instance has a higher number")
            highest = numbered[-1].number


# ---- storms


def faults_in(schedule, report_text, summary, plan):
    """What is wrong with a storm's report, and how many commits it has."""
    report = Report(report_text, schedule)
    if not report.knows_all():
        return ["its requests aren't those of the schedule"], 0
    ours = summary_of(report)
    theirs = ours[:-1] + ["premise held"] if summary is None else summary.splitlines()
    faults = [f"the report has {one}, the summary {other}" for one, other in itertools.zip_longest(ours, theirs) if one != other]
    checker = Checker(report, plan)
    return faults + checker.check(), len(checker.commits)


def checked(plan, words, sums):
    """What is wrong with a storm, and how many commits it has; or None where its packets pass the limit."""
    written, schedule, _ = ran(words, program=WRITER)
    status, summary, _ = ran(["storm", *words]) if sums else (written, None, "")
    if status == LIMIT and written == LIMIT:
        return None
    if status or written:
        return [f"status {status} of the storm, {written} of its schedule"], 0
    status, report, said = ran(["replay"], schedule)
    if status:
        return [f"status {status} of its replay: {said.decode()}"], 0
    return faults_in(schedule.decode(), report.decode(), summary.decode() if sums else None, plan)


def check_storm(plan, words, sums, counts):
    """Checks a storm, prints what is wrong with it, and counts it."""
    answer = checked(plan, words, sums)
    if answer is None:
        counts["passed"] += 1
        return
    faults, commits = answer
    counts.update(storms=1, commits=commits, bad=bool(faults))
    for fault in faults[:10]:
        print(" ".join(words), fault, flush=True)


def main():
    parser = parser_of_storms(__doc__)
    parser.add_argument("--no-summary", action="store_true")
    asked = parser.parse_args()
    need("abstract_bft", "storm_schedule")
    counts = collections.Counter()
    for seed, storms in drawn(asked):
        for plan, words in storms:
            check_storm(plan, words, not asked.no_summary, counts)
        seen = f"{counts['storms']} storms of seeds {asked.seed} to {seed}, with {counts['storms'] * asked.events} events"
        ends = f"{counts['bad']} not as they have to be; {counts['passed']} more passed the limit of packets"
        print(f"{seen} and {counts['commits']} commits: {ends}", flush=True)
    sys.exit(1 if counts["bad"] or not counts["storms"] else 0)


if __name__ == "__main__":
    main()
