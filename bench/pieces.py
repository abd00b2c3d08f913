"""How much memory a program has at most while it runs a scenario, and how much small pieces on its heap take when it begins to
write its report.

What was taken to read a scenario is free again before the run begins, and small pieces come from it, so the greatest memory that
the system tells of a process says less than a run takes. A small library, which is made here by gcc and loaded before the C
library, gives back all that is free at each EVERYth piece, and then looks at the memory of the process: the most of these looks
is that of the run, since behind the reading the memory falls to less than half.

`walter` has let go of all but the trails when it begins to write, and of what it had read: what is left in pieces smaller than
LARGE are those that the trails' entries own. Lists that have grown, as the trails', a client's replies and a disk's, are larger.
The library keeps count of them: of each piece what the C library gives it, with its own word before it.
"""

import tempfile

import measured
from preloads import library_of

LARGE = 65_536
EVERY = 1_024
LIBRARY = r"""
#define _GNU_SOURCE
#include <errno.h>
#include <fcntl.h>
#include <malloc.h>
#include <stdio.h>
#include <stdlib.h>
#include <string.h>
#include <sys/syscall.h>
#include <unistd.h>

void *__libc_malloc(size_t size);
void *__libc_calloc(size_t count, size_t size);
void *__libc_realloc(void *old, size_t size);
void *__libc_memalign(size_t alignment, size_t size);
void __libc_free(void *old);

static long taken, pieces, most;
static int told;

static long size_of(void *piece)
{
    size_t size = piece ? malloc_usable_size(piece) + sizeof(size_t) : 0;
    return size < LARGE ? (long) size : 0;
}

static void look(void)
{
    char text[64];
    int from = open("/proc/self/statm", O_RDONLY);
    ssize_t length = read(from, text, sizeof text - 1);
    close(from);
    text[length > 0 ? length : 0] = 0;
    char *second = strchr(text, ' ');
    long now = second ? atol(second) * sysconf(_SC_PAGESIZE) : 0;
    if (most < now || 2 * now < most)
        most = now;
}

static void *counted(void *piece)
{
    if (__atomic_add_fetch(&pieces, 1, __ATOMIC_SEQ_CST) % EVERY == 0) {
        malloc_trim(0);
        look();
    }
    __atomic_add_fetch(&taken, size_of(piece), __ATOMIC_SEQ_CST);
    return piece;
}

static void discount(void *piece)
{
    __atomic_sub_fetch(&taken, size_of(piece), __ATOMIC_SEQ_CST);
}

void *malloc(size_t size)
{
    return counted(__libc_malloc(size));
}

void *calloc(size_t count, size_t size)
{
    return counted(__libc_calloc(count, size));
}

void *realloc(void *old, size_t size)
{
    long before = size_of(old);
    void *piece = __libc_realloc(old, size);
    if (piece)
        __atomic_add_fetch(&taken, size_of(piece) - before, __ATOMIC_SEQ_CST);
    return piece;
}

void *memalign(size_t alignment, size_t size)
{
    return counted(__libc_memalign(alignment, size));
}

void *aligned_alloc(size_t alignment, size_t size)
{
    return counted(__libc_memalign(alignment, size));
}

int posix_memalign(void **place, size_t alignment, size_t size)
{
    void *piece = counted(__libc_memalign(alignment, size));
    if (piece)
        *place = piece;
    return piece ? 0 : ENOMEM;
}

void free(void *old)
{
    discount(old);
    __libc_free(old);
}

ssize_t write(int file, const void *from, size_t count)
{
    if (file == 1 && !told++) {
        char text[64];
        int length = snprintf(text, sizeof text, "%ld %ld", taken, most);
        int into = open(getenv("PIECES_TOLD"), O_WRONLY);
        syscall(SYS_write, into, text, length);
        close(into);
    }
    return syscall(SYS_write, file, from, count);
}
"""


def taken_by(words, text):
    """How many bytes a program's small pieces take when it begins to write, and how many it has had at most behind its reading,
    where standard input has this text."""
    with tempfile.TemporaryDirectory() as folder, tempfile.NamedTemporaryFile("w+") as told:
        library = library_of(folder, "pieces", LIBRARY, LARGE=LARGE, EVERY=EVERY)
        given = f"LD_PRELOAD={library}", f"PIECES_TOLD={told.name}"
        measured.measured_of(["env", *given, *words], text)
        pieces, most = told.read().split() or (0, 0)
        return int(pieces), int(most)
