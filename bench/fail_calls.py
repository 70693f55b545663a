#!/usr/bin/env python3
"""Runs the built program again and again, and lets one call to the outside fail in each: the first, the second and the last read
of the input, write of the output, write of the faults' output, opening of the port, request for a larger buffer, wait for a datagram and
sending of one; and, of a node with a journal, each write, each read and each sync of the journal.

usage: fail_calls.py

Each run has to end as the table of statuses says, with the text of its status, and with a front of what it writes without
the fault. A datagram that couldn't be sent is a loss, and the node goes on; a buffer that wasn't got changes nothing. Once a call of the
journal failed, nothing is sent, and another run goes on with the journal that is left. What is otherwise is told, and the status is then 1.
It needs a C compiler."""

import itertools
import pathlib
import sys
import tempfile

from cluster import SEED, free_base
from preload import built
from programs import TOP, end_in_order, need, parser_of, ran

FAILER = r"""
#define _GNU_SOURCE
#include <dlfcn.h>
#include <errno.h>
#include <stdio.h>
#include <stdlib.h>
#include <string.h>
#include <sys/socket.h>
#include <sys/uio.h>
#include <unistd.h>
enum { IN, OUT, ERR, OPEN, ROOM, RECV, SEND, SYNC, PUT, GET, KINDS };
static const char *names[KINDS] = { "in", "out", "err", "open", "room", "recv", "send", "sync", "put", "get" };
static long counts[KINDS];
static int fails(int kind) {
    const char *which = getenv("FAIL_KIND"), *number = getenv("FAIL_NUMBER");
    counts[kind]++;
    return which && number && !strcmp(which, names[kind]) && counts[kind] == atol(number);
}
static int stream(int fd) { return fd == 0 ? IN : fd == 1 ? OUT : fd == 2 ? ERR : -1; }
#define REAL(call) static __typeof__(call) *real; if (!real) real = dlsym(RTLD_NEXT, #call)
ssize_t read(int fd, void *b, size_t n) {
    REAL(read);
    if (fd == 0 && fails(IN)) { errno = EIO; return -1; }
    return real(fd, b, n);
}
ssize_t write(int fd, const void *b, size_t n) {
    REAL(write);
    if (stream(fd) > 0 && fails(stream(fd))) { errno = EIO; return -1; }
    return real(fd, b, n);
}
int bind(int fd, const struct sockaddr *a, socklen_t n) {
    REAL(bind);
    if (fails(OPEN)) { errno = EADDRINUSE; return -1; }
    return real(fd, a, n);
}
int setsockopt(int fd, int level, int name, const void *value, socklen_t n) {
    REAL(setsockopt);
    if (level == SOL_SOCKET && name == SO_RCVBUF && fails(ROOM)) { errno = EPERM; return -1; }
    return real(fd, level, name, value, n);
}
ssize_t recvfrom(int fd, void *b, size_t n, int flags, struct sockaddr *a, socklen_t *l) {
    REAL(recvfrom);
    if (fails(RECV)) { errno = EIO; return -1; }
    return real(fd, b, n, flags, a, l);
}
ssize_t sendto(int fd, const void *b, size_t n, int flags, const struct sockaddr *a, socklen_t l) {
    REAL(sendto);
    if (fails(SEND)) { errno = EPERM; return -1; }
    return real(fd, b, n, flags, a, l);
}
int fsync(int fd) {
    REAL(fsync);
    if (fails(SYNC)) { errno = EIO; return -1; }
    return real(fd);
}
int fdatasync(int fd) {
    REAL(fdatasync);
    if (fails(SYNC)) { errno = EIO; return -1; }
    return real(fd);
}
ssize_t pwrite(int fd, const void *b, size_t n, off_t at) {
    REAL(pwrite);
    if (fails(PUT)) { errno = ENOSPC; return -1; }
    return real(fd, b, n, at);
}
ssize_t pread(int fd, void *b, size_t n, off_t at) {
    REAL(pread);
    if (fails(GET)) { errno = EIO; return -1; }
    return real(fd, b, n, at);
}
__attribute__((destructor)) static void tell(void) {
    const char *path = getenv("COUNTS");
    FILE *f;
    if (path && (f = fopen(path, "w"))) { for (int i = 0; i < KINDS; i++) fprintf(f, "%ld ", counts[i]); fclose(f); }
}
"""
KINDS = ("in", "out", "err", "open", "room", "recv", "send", "sync", "put", "get")
DISK = ("sync", "put", "get")
# What a run of each of these calls at least once.
NODES = {"in", "out", "err", "open", "room", "recv", "send"}
CALLED = {"replay": {"in", "out"}, "replay, a bad line": {"in", "err"}, "keys": {"out"}, "node": NODES}
JOURNAL = "node with a journal"
KEYS = ["keys", *"--plan quorum --f 1 --clients 1 --service kv --lms 5 --party c0 --seed".split(), SEED]
# It waits so long that no timer runs out before the wait does, however busy the machine is.
NODE = ["node", *"--wait 500 --turns 3 --base".split()]
KEPT = ["node", *"--wait 500 --turns 1 --base".split()]


def wanted(kind, good, failed):
    """Whether a run with a fault of this kind ended as it has to, and the run without."""
    (status, out, err), (good_status, good_out, good_err) = failed, good
    front = good_out.startswith(out)
    if kind == "in":
        return (status, out, err) == (4, b"", b"read fault\n")
    if kind == "out":
        return status == 5 and front and out != good_out and err == b"write fault\n"
    if kind == "err":
        return status == 5 and out == good_out and good_err.startswith(err) and err != good_err
    if kind in ("open", "recv"):
        return status == 6 and front and out != good_out and err == b"link fault\n"
    if kind == "room":
        return failed == good
    events, sent, lost, spent = (int(n) for n in good_out.split()[1:])
    return (status, out, err) == (good_status, b"end %d %d %d %d\n" % (events, sent, lost + 1, spent), good_err)


def commands():
    """The runs that are tried: a name, the words and the input of each."""
    schedule = (TOP / "examples" / "two_clients_cross.sched").read_bytes()
    node = ran(KEYS, b"")[1] + b"do put a 1\nend\n"
    yield "replay", ["replay"], schedule
    yield "replay, a bad line", ["replay"], b"x"
    yield "keys", KEYS, b""
    yield "node", [*NODE, str(free_base())], node


def tried_journals(folder, library, counts):
    """The same of a node with a journal whose calls of the journal fail. Each run has a journal of its own."""
    text, numbers, base = ran(KEYS)[1] + b"do put a 1\nend\n", itertools.count(1), str(free_base())

    def run(number, **environment):
        return ran([*KEPT, base, "--journal", f"journal{number}"], text, folder=folder, **environment)

    def counted(number, **environment):
        """How a run ends, and its calls of each kind."""
        ended = run(number, LD_PRELOAD=library, COUNTS=str(counts), **environment)
        return ended, dict(zip(KINDS, map(int, counts.read_text().split())))

    first = next(numbers)
    good, made = counted(first)
    yield f"{JOURNAL}, no call fails", None if good == (8, b"end 1 4 0 0\n", b"turns spent 1\n") else f"{good}"
    again, read = counted(first)
    yield f"{JOURNAL}, again", None if again == (8, b"end 1 0 0 0\n", b"turns spent 1\n") else f"{again}"
    made["get"] = read["get"]
    yield f"{JOURNAL}, calls", None if all(made[kind] for kind in DISK) else f"it never called one of these: {made}"
    for kind in DISK:
        for call in range(1, made[kind] + 1):
            # A journal that was written is read, and a new one is written.
            number = first if kind == "get" else next(numbers)
            failed, calls = counted(number, FAIL_KIND=kind, FAIL_NUMBER=str(call))
            as_wanted = (*failed, calls["send"]) == (10, b"", b"disk fault\n", 0)
            yield f"{JOURNAL}, {kind} {call} of {made[kind]}", None if as_wanted else f"{failed}, {calls['send']} datagrams were sent"
            # The event was kept, and isn't done again; or it wasn't, and is done now.
            after = run(number)
            yield f"{JOURNAL}, after {kind} {call} of {made[kind]}", None if after in (good, again) else f"{after}"


def tried(folder):
    """Yields, of each run in which a call fails, its name, and how it ended if not as it has to, else None."""
    folder = pathlib.Path(folder)
    library, counts = built(folder, FAILER), folder / "counts"
    yield from tried_journals(folder, library, counts)
    for name, words, text in commands():
        good = ran(words, text, LD_PRELOAD=library, COUNTS=str(counts))
        made = [int(count) for count in counts.read_text().split()]
        uncalled = CALLED[name] - {kind for kind, last in zip(KINDS, made) if last}
        yield f"{name}, calls", f"it never called {', '.join(sorted(uncalled))}" if uncalled else None
        touched = {kind for kind, last in zip(KINDS, made) if last and kind in DISK}
        yield f"{name}, no journal", f"it called a disk: {', '.join(sorted(touched))}" if touched else None
        for kind, last in zip(KINDS, made):
            for number in sorted({1, 2, last} & set(range(1, last + 1))):
                failed = ran(words, text, LD_PRELOAD=library, FAIL_KIND=kind, FAIL_NUMBER=str(number))
                ended = None if wanted(kind, good, failed) else f"{failed}, and without the fault {good}"
                yield f"{name}, {kind} {number} of {last}", ended


def main():
    parser_of(__doc__).parse_args()
    need("abstract_bft")
    end_in_order()
    bad = runs = 0
    with tempfile.TemporaryDirectory() as folder:
        for name, ended in tried(folder):
            runs += 1
            if ended:
                bad += 1
                print(f"{name}: {ended}")
    print(f"{runs} runs with a fault, {bad} of them not as they have to be")
    sys.exit(1 if bad else 0)


if __name__ == "__main__":
    main()
