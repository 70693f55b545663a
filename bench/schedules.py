"""Schedules that scripts put together, and their replays."""

import sys

from programs import ran


ZEROS = "0" * 64


def head(plan, f=1, clients=1, service="kv", lms=10, faulty=(), seed=ZEROS, every=0):
    """The lines before the events, with some that declare parties faulty. Keys are those of the seed. A checkpoint is due after `every`
    requests, or never."""
    settings = [f"f {f}", f"plan {plan}", f"clients {clients}", f"service {service}", f"lms {lms}"]
    if seed != ZEROS:
        return ["abstract 4", *settings, f"checkpoint {every}", f"seed {seed}", *faulty, "run"]
    if every:
        return ["abstract 3", *settings, f"checkpoint {every}", *faulty, "run"]
    version = 2 if int(lms) == 20 else 1
    return [f"abstract {version}", *settings, *faulty, "run"]


def deliveries(packets):
    return [f"deliver {packet}" for packet in packets]


def text_of(lines):
    """The schedule of these lines, which have no `end`."""
    return "\n".join([*lines, "end", ""]).encode()


def report_of(lines):
    """The report of a schedule, which has to be replayed with status 0."""
    status, report, said = ran(["replay"], text_of(lines))
    if status:
        sys.exit(f"the replay ended with {status}: {said.decode().strip()}")
    return report.decode()


def packets_of(lines):
    """How many packets the events send, by the report's last line."""
    return int(report_of(lines).split()[-1])


class Schedule:
    """The lines of a schedule in which each packet is delivered in its order, how many were, and how many requests were made."""

    def __init__(self, lines):
        self.lines = lines
        self.delivered = 0
        self.requests = 0

    def deliver(self, *counts):
        """Delivers the next packets, as many as the sum of the counts."""
        first = self.delivered + 1
        self.delivered += sum(counts)
        self.lines += deliveries(range(first, self.delivered + 1))

    def invoke(self, client, command):
        self.requests += 1
        self.lines.append(f"invoke {client} {command}")

    def time_out(self, parties):
        self.lines += [f"timeout {party}" for party in parties]
