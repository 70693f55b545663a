#!/usr/bin/env python3
"""Times the opening of three messages as parties send them: a CHAIN, an INIT, and a NEW-VIEW as long as correct parties make one.

usage: opening.py [MESSAGE..]

A schedule delivers the packet of each again and again to a replica that it leaves as it is and that sends nothing for it. What the
same schedule takes without these deliveries is taken off. So what is left is a line of the schedule; opening, with tags checked and
signatures found among those that are known; looking at what was claimed and brought; and what the replica does until it sees that
nothing is to be done. A byte that is no message is a line of the schedule and hardly more.

The words are the messages that are timed: `chain`, `init` or `new-view`; without words all are. Prints microseconds and bytes per second
for each, the best of five runs by processor time. All take some ten minutes."""

import functools
import sys

from programs import need, parser_of
from schedules import Schedule, deliveries, head, packets_of, report_of
from timing import least_processor_time

TIMES = 90_000
SIGNATURE = 2 + 2508
REPLICAS = 7
OTHERS = REPLICAS - 1
QUORUM = 5
SLOTS = 17
MOST = 1024
COMMAND = "p" * 128
# How many packets order a slot: PRE-PREPAREs, PREPAREs and COMMITs.
SLOT = OTHERS + 2 * REPLICAS * OTHERS


@functools.cache
def seconds(lines):
    """The processor time of the program for a schedule, the best of five."""
    return least_processor_time(lambda: report_of(lines))


def tell(name, size, lines, event, times=TIMES):
    """Times an event, so many times, behind the lines of a schedule."""
    idle, busy = (seconds((*lines, *more)) for more in ([], [event] * times))
    took = (busy - idle) / times
    print(f"{name}, {size} bytes: {1e6 * took:.2f} us, {size / took:.3g} bytes/s", flush=True)


def head_of(f, plan):
    """A cluster of one client with one faulty replica, of which there are two."""
    return head(plan, f, service="echo", faulty=[f"faulty r{3 * f} 2"])


def of_requests(commands):
    """The bytes of these commands' requests."""
    return sum(2 + 8 + 2 + len(command) for command in commands)


def chain():
    """The second position's message to the third, which has stopped since, with the tags of both and of the client."""
    lines = head_of(1, "chain") + ["invoke c0 put a 1", *deliveries([1, 2, 3]), "timeout c0", *deliveries([7])]
    size = 1 + 4 + of_requests(["put a 1"]) + 2 + 32 + 1 + 1 + 3 * (3 + 3 + 32)
    tell("byte that is no message", 1, lines, "inject r3 ff")
    tell("CHAIN to a replica that has stopped", size, lines, "deliver 3")


def init():
    """A certificate of three signed histories of one request, which a client carries into the second instance."""
    lines = head_of(1, "quorum") + ["invoke c0 put a 1", *deliveries([1, 2, 3, 4]), "timeout c0", *deliveries([*range(9, 16), 17])]
    size = 1 + 1 + 3 * (1 + 3 + 4 + 2 + of_requests(["put a 1"]) + SIGNATURE)
    tell("INIT to a replica that has entered by it", size, lines, "deliver 17")


class Ordering(Schedule):
    """A schedule in which a client of Azyzzyva commits, and carries its requests from instance to instance."""

    def ask(self):
        self.invoke("c0", COMMAND)

    def commit_in_light(self):
        """A request, its ORDERs and its answers."""
        self.ask()
        self.deliver(1, OTHERS, REPLICAS)

    def commit_in_backup(self):
        """A request to each replica, its slot and its answers."""
        self.ask()
        self.deliver(REPLICAS, SLOT, REPLICAS)

    def into_light(self):
        """A Backup that is over answers a request with ABORTs. INITs follow, and it commits in the next instance."""
        self.ask()
        self.deliver(REPLICAS, REPLICAS, REPLICAS, 1, OTHERS, REPLICAS)

    def into_backup(self):
        """The client of a ZLight asks its primary, which orders and answers, and panics at once, beyond the first instance with
        INITs. ABORTs and INITs follow, and it asks again and commits in the next instance, behind the base."""
        inits = REPLICAS if self.requests else 0
        self.ask()
        self.time_out(["c0"])
        self.deliver(1, inits, REPLICAS, OTHERS + 1, REPLICAS, REPLICAS, REPLICAS, 2 * SLOT, REPLICAS)


def fifth_backup():
    """The first four Backups take 1, 2, 4 and 8 requests, and a fifth 16, of which all but the last commit here. The ZLight before
    commits as many as leave room for these."""
    made = Ordering(head_of(2, "azyzzyva"))
    for limit in (1, 2, 4, 8):
        made.into_backup()
        for _ in range(limit - 1):
            made.commit_in_backup()
        made.into_light()
    while made.requests < MOST - 16:
        made.commit_in_light()
    made.into_backup()
    for _ in range(14):
        made.commit_in_backup()
    return made


def new_view():
    """Five view changes of all slots, with five signatures for each. The last slot is prepared, and its COMMITs are lost. Then all
    timers run out, and the view changes reach the new primary."""
    made = fifth_backup()
    made.ask()
    made.deliver(REPLICAS, OTHERS, REPLICAS * OTHERS)
    made.delivered += REPLICAS * OTHERS
    made.time_out(f"r{replica}" for replica in range(REPLICAS))
    made.deliver(REPLICAS * OTHERS)
    first, last = made.delivered + 1, made.delivered + OTHERS
    lines = made.lines + deliveries([first])
    # Each replica sent COMMITs, so the last slot is prepared at all; the new primary and r0 sent PREPAREs in the new view.
    if packets_of(lines) != last + 2 * OTHERS:
        sys.exit("the view changes aren't of all slots")
    prepares = 1 + QUORUM * (1 + SIGNATURE)
    view_change = 1 + 3 + 4 + 4 + 1 + SLOTS * 36 + SIGNATURE + 2 + of_requests([COMMAND] * MOST) + SLOTS * prepares
    size = 1 + 12 + 32 + 1 + QUORUM * view_change
    tell("NEW-VIEW to a replica in another instance", size, lines, f"deliver {last} r6.2", 1000)
    tell("NEW-VIEW to a replica that has taken it", size, lines, f"deliver {first}", 1000)


MESSAGES = {"chain": chain, "init": init, "new-view": new_view}


def main():
    parser = parser_of(__doc__)
    parser.add_argument("messages", nargs="*", metavar="MESSAGE")
    messages = parser.parse_args().messages or MESSAGES
    unknown = sorted({*messages} - {*MESSAGES})
    if unknown:
        parser.error(f"no such message: {', '.join(unknown)}")
    need("abstract_bft")
    for message in messages:
        MESSAGES[message]()


if __name__ == "__main__":
    main()
