"""How long the built program takes."""

import resource
import sys
import time

from programs import ran
from schedules import text_of

RUNS = 5


def time_replay(name, lines, commits):
    """Replays a schedule that commits so many requests, and prints its events, seconds and peak memory."""
    text = text_of(lines)
    begin = time.perf_counter()
    status, report, said = ran(["replay"], text)
    seconds = time.perf_counter() - begin
    if status or report.count(b"\ncommit ") != commits:
        sys.exit(f"{name}: status {status}, {said.decode().strip()}")
    events = len(lines) - lines.index("run") - 1
    peak = resource.getrusage(resource.RUSAGE_CHILDREN).ru_maxrss
    print(f"{name}, {events} events: {seconds:.3f} s, {events / seconds:.0f} events/s, peak {peak} KiB", flush=True)


def processor_time():
    """What the processes that ended took so far."""
    used = resource.getrusage(resource.RUSAGE_CHILDREN)
    return used.ru_utime + used.ru_stime


def least_processor_time(call):
    """What the processes that a call runs take, the least of five calls."""
    least = float("inf")
    for _ in range(RUNS):
        begin = processor_time()
        call()
        least = min(least, processor_time() - begin)
    return least
