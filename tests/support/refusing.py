"""Refuses chosen allocations to a program.

Everything that the program allocates goes through two functions of its runtime, `rattle_alloc` and `rattle_realloc`, which
call those of the C library, and everything that it frees through `rattle_dealloc`. A library that is loaded with the program
redirects these calls to its own functions, which count, and refuse a given number of allocations from a given one on. A test
may change these numbers while the program runs. It may count only the allocations of some threads; threads are numbered from
0, in the order in which they were started. The addresses of the functions are read from the program's file.
"""

import os
import struct
import subprocess

from .program import Ended, ran

ALL_THREADS = range(1_000)
FIRST_THREAD, FLUSHER, WORKERS = range(1), range(2, 3), range(3, 11)  # numbers of a server's threads; its printer is 1
# Redirects a call in a function of the program to another function.
LEAD = r"""
#include <link.h>
#include <string.h>
#include <sys/mman.h>
static int first_object(struct dl_phdr_info *info, size_t size, void *base) {
    *(unsigned char **)base = (unsigned char *)info->dlpi_addr;
    return 1;
}
// Leads the one call in a function, or its jump, to a target, by a jump on a page of its own near the program.
static void lead(unsigned char *function, int code, void *target) {
    unsigned char *call = memchr(function, code, 40), *page = (unsigned char *)((long)function & ~4095L), *jump = MAP_FAILED;
    int all = PROT_READ | PROT_WRITE | PROT_EXEC, how = MAP_PRIVATE | MAP_ANONYMOUS | MAP_FIXED_NOREPLACE;
    for (long far = 1 << 20; call && jump == MAP_FAILED && far < 1 << 30; far += 1 << 16)
        jump = mmap(page - far, 4096, all, how, -1, 0);
    if (jump == MAP_FAILED || mprotect(page, 8192, all)) _exit(99);
    memcpy(jump, "\xff\x25\0\0\0\0", 6);
    memcpy(jump + 6, &target, 8);
    int distance = jump - (call + 5);
    memcpy(call + 1, &distance, 4);
    mprotect(page, 8192, PROT_READ | PROT_EXEC);
}
"""
SOURCE = r"""
#define _GNU_SOURCE
#include <dlfcn.h>
#include <fcntl.h>
#include <link.h>
#include <pthread.h>
#include <stdlib.h>
#include <string.h>
#include <sys/mman.h>
#include <unistd.h>
static void *(*real_malloc)(size_t), *(*real_realloc)(void *, size_t);
static void (*real_free)(void *);
static size_t (*size_of)(void *);
static long *calls, counted_from, counted_to, threads;
static __thread long own;  // the number of this thread; 0 is the first one's
static long setting(const char *name) { return getenv(name) ? atol(getenv(name)) : 0; }
struct started { void *(*run)(void *), *given; long number; };
static void *numbered(void *given) {
    struct started it = *(struct started *)given;
    free(given);
    own = it.number;
    return it.run(it.given);
}
int pthread_create(pthread_t *thread, const pthread_attr_t *how, void *(*run)(void *), void *given) {
    int (*usual)(pthread_t *, const pthread_attr_t *, void *(*)(void *), void *) = dlsym(RTLD_NEXT, "pthread_create");
    struct started *it = malloc(sizeof *it);
    *it = (struct started){run, given, ++threads};
    return usual(thread, how, numbered, it);
}
static int refuses(void) {
    if (own < counted_from || own >= counted_to) return 0;
    long call = __atomic_add_fetch(calls, 1, __ATOMIC_SEQ_CST);
    return calls[2] <= call && call < calls[2] + calls[3];
}
// After the count of allocations stands how many were not given back, from which one on some are refused, how many, and how
// many bytes were not given back.
static void *counted_malloc(size_t size) {
    void *given = refuses() ? 0 : real_malloc(size);
    if (given) {
        __atomic_add_fetch(calls + 1, 1, __ATOMIC_SEQ_CST);
        __atomic_add_fetch(calls + 4, size_of(given), __ATOMIC_SEQ_CST);
    }
    return given;
}
static void counted_free(void *kept) {
    if (kept) {
        __atomic_sub_fetch(calls + 1, 1, __ATOMIC_SEQ_CST);
        __atomic_sub_fetch(calls + 4, size_of(kept), __ATOMIC_SEQ_CST);
    }
    real_free(kept);
}
static void *counted_realloc(void *kept, size_t size) {
    size_t before = kept ? size_of(kept) : 0;
    void *given = refuses() ? 0 : real_realloc(kept, size);
    if (given) __atomic_add_fetch(calls + 4, size_of(given) - before, __ATOMIC_SEQ_CST);
    return given;
}
@LEAD@
__attribute__((constructor)) static void begin(void) {
    unsigned char *base = 0;
    // the count stands in a file, since the program ends without a farewell
    calls = mmap(0, 5 * sizeof *calls, PROT_READ | PROT_WRITE, MAP_SHARED, open(getenv("ALLOCATIONS"), O_RDWR), 0);
    if (calls == MAP_FAILED) _exit(99);
    counted_from = setting("COUNTED_FROM");
    counted_to = setting("COUNTED_TO");
    real_malloc = dlsym(RTLD_DEFAULT, "malloc");
    real_realloc = dlsym(RTLD_DEFAULT, "realloc");
    size_of = dlsym(RTLD_DEFAULT, "malloc_usable_size");
    dl_iterate_phdr(first_object, &base);
    real_free = dlsym(RTLD_DEFAULT, "free");
    lead(base + setting("ALLOC_AT"), 0xe8, counted_malloc);
    lead(base + setting("REALLOC_AT"), 0xe8, counted_realloc);
    lead(base + setting("DEALLOC_AT"), 0xe9, counted_free);
}
"""


def places(program: str, names: list[str]) -> list[int]:
    """Returns the addresses of these functions, from the symbol table of the program's file."""
    with open(program, "rb") as file:
        text = file.read()
    at, size, count = struct.unpack_from("<Q", text, 40)[0], *struct.unpack_from("<HH", text, 58)
    sections = [struct.unpack_from("<IIQQQQIIQQ", text, at + size * each) for each in range(count)]
    found = {}
    for _, kind, _, _, offset, length, link, *_ in sections:
        for place in range(offset, offset + length, 24) if kind == 2 else ():
            name, _, _, _, value, _ = struct.unpack_from("<IBBHQQ", text, place)
            begin = sections[link][4] + name
            word = text[begin:text.index(b"\0", begin)].decode()
            if word in names:
                found[word] = value
    return [found[name] for name in names]


class Refusing:
    """The library for one program, in this folder."""

    def __init__(self, program: str, folder: str) -> None:
        self.program, self.folder = program, folder
        self.alloc, self.realloc, self.dealloc = places(program, ["rattle_alloc", "rattle_realloc", "rattle_dealloc"])
        with open(f"{folder}/refusing.c", "w", encoding="ascii") as file:
            file.write(SOURCE.replace("@LEAD@\n", LEAD))
        subprocess.run(["cc", "-O1", "-shared", "-fPIC", "-o", f"{folder}/refusing.so", f"{folder}/refusing.c"], check=True)

    def environment(self, first: int = 0, many: int = 1, threads: range = ALL_THREADS) -> dict[str, str]:
        """Returns the environment with which the program is refused this many allocations from this number on, counting only
        those of these threads."""
        settings = {"COUNTED_FROM": threads[0], "COUNTED_TO": threads[-1] + 1,
                    "ALLOC_AT": self.alloc, "REALLOC_AT": self.realloc, "DEALLOC_AT": self.dealloc,
                    "ALLOCATIONS": f"{self.folder}/allocations", "LD_PRELOAD": f"{self.folder}/refusing.so"}
        with open(f"{self.folder}/allocations", "wb") as file:
            file.write(struct.pack("=5q", 0, 0, first, many, 0))
        return {name: str(value) for name, value in settings.items()}

    def count(self) -> int:
        """Returns the number of allocations that the program of that environment has requested."""
        return self.counts()[0]

    def kept(self) -> int:
        """Returns the number of allocations that it has not freed."""
        return self.counts()[1]

    def kept_bytes(self) -> int:
        """Returns the number of bytes that it has not freed."""
        return self.counts()[4]

    def counts(self) -> tuple[int, ...]:
        with open(f"{self.folder}/allocations", "rb") as file:
            return struct.unpack("=5q", file.read())

    def refuse(self, first: int, many: int) -> None:
        """From now on, refuses this many allocations from this number on to the program of that environment."""
        with open(f"{self.folder}/allocations", "r+b") as file:
            file.seek(16)
            file.write(struct.pack("=2q", first, many))

    def ran(self, *arguments: str, first: int = 0, many: int = 1, given: bytes = b"") -> tuple[Ended, int]:
        """Runs the program, and refuses this many of its allocations from this number on. Returns how it ended, and the number
        of allocations that it requested."""
        environment = {**os.environ, **self.environment(first, many)}
        return ran(*arguments, program=self.program, env=environment, given=given), self.count()
