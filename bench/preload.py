"""What scripts share that come between a built program and the C library. It needs a C compiler."""

import collections
import concurrent.futures
import subprocess
import time

from programs import parser_of

# Refuses the allocation whose number REFUSE has, and with REFUSE_REST all after it. Writes how many there were to the file ASKED.
REFUSER = r'''
#define _GNU_SOURCE
#include <dlfcn.h>
#include <errno.h>
#include <stdlib.h>
#include <stdio.h>
#include <unistd.h>
static long asked, refused;
static int ready, rest;
static void begin(void) {
    const char *n = getenv("REFUSE");
    refused = n ? atol(n) : 0;
    rest = getenv("REFUSE_REST") != NULL;
    ready = 1;
}
static int refuse(void) {
    if (!ready) begin();
    asked++;
    return asked == refused || (rest && 0 < refused && refused < asked);
}
void *malloc(size_t n) {
    static void *(*real)(size_t);
    if (!real) real = dlsym(RTLD_NEXT, "malloc");
    if (refuse()) { errno = ENOMEM; return NULL; }
    return real(n);
}
void *realloc(void *p, size_t n) {
    static void *(*real)(void *, size_t);
    if (!real) real = dlsym(RTLD_NEXT, "realloc");
    if (refuse()) { errno = ENOMEM; return NULL; }
    return real(p, n);
}
void *aligned_alloc(size_t a, size_t n) {
    static void *(*real)(size_t, size_t);
    if (!real) real = dlsym(RTLD_NEXT, "aligned_alloc");
    if (refuse()) { errno = ENOMEM; return NULL; }
    return real(a, n);
}
int posix_memalign(void **p, size_t a, size_t n) {
    static int (*real)(void **, size_t, size_t);
    if (!real) real = dlsym(RTLD_NEXT, "posix_memalign");
    if (refuse()) return ENOMEM;
    return real(p, a, n);
}
__attribute__((destructor)) static void tell(void) {
    const char *path = getenv("ASKED");
    long count = asked; /* opening a file asks for more */
    FILE *f;
    refused = -1;
    if (path && (f = fopen(path, "w"))) { fprintf(f, "%ld", count); fclose(f); }
}
'''


def built(folder, source):
    """The C source as a library to be preloaded."""
    text, library = folder / "between.c", folder / "between.so"
    text.write_text(source)
    subprocess.run(["cc", "-shared", "-fPIC", "-O1", "-o", library, text, "-ldl"], check=True)
    return str(library)


def parser_of_refusals(doc):
    """A parser of the words of a script that refuses allocations."""
    parser = parser_of(doc)
    parser.add_argument("--lanes", type=int, default=1)
    parser.add_argument("--minutes", type=float, default=10)
    parser.add_argument("--rest", action="store_true")
    return parser


def refusing(library, number, asked):
    """The environment in which the allocation of this number is refused; none is if it is 0."""
    return {"LD_PRELOAD": library, "REFUSE": str(number), **({"REFUSE_REST": "1"} if asked.rest else {})}


def swept(runs, folder, asked):
    """How many allocations the runs ask for, at which step they were refused, and how many of the runs ended in which way. `whole`
    runs with all memory and has the count written to a file, and `end` says how a run ends if the allocation of a number is
    refused. If all would take more than so many minutes, each second is refused, or each third, and so on."""
    counted, begin = folder / "asked", time.perf_counter()
    runs.whole(str(counted))
    seconds = time.perf_counter() - begin
    count = int(counted.read_text())
    step = 1 + int(count * seconds / (60 * asked.minutes * asked.lanes))
    with concurrent.futures.ThreadPoolExecutor(asked.lanes) as lanes:
        ends = collections.Counter(lanes.map(runs.end, range(1, count + 1, step)))
    return count, step, ends


def told(count, step, ends):
    """What `swept` found, in words."""
    each = f", of which each {step}th was refused" if step > 1 else ""
    return f"{count} allocations{each}: " + ", ".join(f"{number} {end}" for end, number in sorted(ends.items()))
