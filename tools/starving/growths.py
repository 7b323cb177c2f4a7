"""Runs of the program in which one growth of its memory is refused, or one and all after it."""
import os
import subprocess
from collections import Counter

from starving import rows

# Stands before the C library's own calls: of all calls for memory, counted from 0, it refuses that of the number REFUSED,
# and with REFUSED_ALL those after it too, and tells by a byte to REFUSED_TOLD that it has refused one.
SOURCE = r'''
#include <errno.h>
#include <stdlib.h>
#include <unistd.h>

extern void *__libc_malloc(size_t), *__libc_calloc(size_t, size_t);
extern void *__libc_realloc(void *, size_t), *__libc_memalign(size_t, size_t);
static long calls = 0;

static int refused(void) {
    const char *number = getenv("REFUSED"), *told = getenv("REFUSED_TOLD");
    long call = __atomic_fetch_add(&calls, 1, __ATOMIC_SEQ_CST);
    if (!number || !told || call < atol(number) || (call > atol(number) && !getenv("REFUSED_ALL"))) return 0;
    if (write(atoi(told), "x", 1)) {}
    errno = ENOMEM;
    return 1;
}

void *malloc(size_t n) { return refused() ? NULL : __libc_malloc(n); }
void *calloc(size_t k, size_t n) { return refused() ? NULL : __libc_calloc(k, n); }
void *realloc(void *p, size_t n) { return refused() ? NULL : __libc_realloc(p, n); }
void *memalign(size_t a, size_t n) { return refused() ? NULL : __libc_memalign(a, n); }
void *aligned_alloc(size_t a, size_t n) { return refused() ? NULL : __libc_memalign(a, n); }
int posix_memalign(void **p, size_t a, size_t n) {
    if (refused()) return ENOMEM;
    *p = __libc_memalign(a, n);
    return *p ? 0 : ENOMEM;
}
'''


def compiled(folder):
    """The path of the library that refuses, made in a folder."""
    path = os.path.join(folder, 'refuses.so')
    subprocess.run(['cc', '-O1', '-shared', '-fPIC', '-x', 'c', '-', '-o', path], input=SOURCE.encode(), check=True)
    return path


def refusing(program, row, library, number, all_after):
    """How a run ends in which the growth of this number is refused, and whether there was one."""
    reads, writes = os.pipe()
    environment = dict(os.environ, LD_PRELOAD=library, REFUSED=str(number), REFUSED_TOLD=str(writes))
    if all_after:
        environment['REFUSED_ALL'] = '1'
    with os.fdopen(reads, 'rb') as told:
        try:
            got = rows.run(program, row, env=environment, pass_fds=[writes])
        finally:
            os.close(writes)
        return got, bool(told.read(1))


def tried(program, row, library, all_after):
    """How often the answer was whole and memory ran out, and the runs that ended otherwise, by the number refused."""
    counts, wrong, number = Counter(), [], 0
    while True:
        got, was_refused = refusing(program, row, library, number, all_after)
        if not was_refused:
            if not rows.is_whole(got, row):
                wrong.append((number, got))
            return counts, wrong
        if rows.is_whole(got, row):
            counts['whole'] += 1
        elif rows.is_wanting(got):
            counts['wanting'] += 1
        else:
            wrong.append((number, got))
        number += 1
