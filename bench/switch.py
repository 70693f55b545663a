#!/usr/bin/env python3
"""Times replays in which a client of the plan zlight panics again and again.

usage: switch.py [INSTANCES..]

In each instance the client commits four requests, panics with a fifth and carries it on into the next instance, where it commits. The
words say how many instances there are, up to 205; without words it times 25, 50 and 100. Prints, for each, the entries of the logs at
the end, the events, the seconds, events per second and the peak memory of the program."""

from programs import need, parser_of
from schedules import deliveries, head
from timing import time_replay

REPLICAS = 4
QUORUM = 3
COMMITS = 4


class Switching:
    """The lines of a schedule, and how many packets its events have sent."""

    def __init__(self):
        self.lines = head("zlight")
        self.sent = 0
        self.requests = 0

    def send(self, count):
        """What was sent last: the numbers of so many packets."""
        first = self.sent + 1
        self.sent += count
        return range(first, self.sent + 1)

    def deliver(self, packets):
        self.lines += deliveries(packets)

    def invoke(self):
        self.requests += 1
        self.lines.append(f"invoke c0 put k{self.requests % 100} v{self.requests}")
        return self.send(1)

    def commit(self, request):
        """The primary orders a request, and the client takes the answers of all."""
        self.deliver(request)
        *orders, answer = self.send(REPLICAS)
        answers = [answer]
        for order in orders:
            self.deliver([order])
            answers.extend(self.send(1))
        self.deliver(answers)

    def switch(self, instance):
        """The client panics with a new request, and carries it into the next instance."""
        self.invoke()
        self.lines.append("timeout c0")
        if instance > 1:
            self.send(REPLICAS)
        aborts = []
        for panic in self.send(REPLICAS):
            self.deliver([panic])
            aborts.extend(self.send(1))
        self.deliver(aborts[:QUORUM])
        self.deliver(self.send(REPLICAS))
        self.commit(self.send(1))


def schedule(instances):
    made = Switching()
    for instance in range(1, instances):
        for _ in range(COMMITS):
            made.commit(made.invoke())
        made.switch(instance)
    return made


def main():
    parser = parser_of(__doc__)
    parser.add_argument("instances", nargs="*", type=int, default=[25, 50, 100])
    counts = parser.parse_args().instances
    need("abstract_bft")
    for instances in counts:
        made = schedule(instances)
        time_replay(f"{instances} instances, {made.requests} entries", made.lines, made.requests)


if __name__ == "__main__":
    main()
