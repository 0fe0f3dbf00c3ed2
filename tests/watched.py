"""A library that stands before the C library in a run: it counts, and it refuses a request for memory.

The environment names what it does: `REFUSE` is the number of the request for memory that is refused, from 1, or 0 for
none. `REFUSE_TELLS` is a descriptor to which it writes two numbers at the end: the requests for memory, and the threads
that were started.
"""

import os
import subprocess
from pathlib import Path

SOURCE = r"""
#define _GNU_SOURCE
#include <dlfcn.h>
#include <errno.h>
#include <pthread.h>
#include <stddef.h>
#include <stdio.h>
#include <stdlib.h>
#include <sys/syscall.h>
#include <unistd.h>
static long at = -1, count, threads;
static int refused(void) {
    if (at < 0) { const char *word = getenv("REFUSE"); at = word ? atol(word) : 0; }
    return __sync_add_and_fetch(&count, 1) == at;
}
static void tell(void) {
    const char *word = getenv("REFUSE_TELLS");
    char text[64];
    if (!word || !*word) return;
    int fd = atoi(word);
    unsetenv("REFUSE_TELLS");
    int n = snprintf(text, sizeof text, "%ld %ld\n", count, threads);
    if (write(fd, text, n) < 0) syscall(SYS_exit_group, 9);
}
__attribute__((destructor)) static void told(void) { tell(); }
void _exit(int status) { tell(); syscall(SYS_exit_group, status); __builtin_unreachable(); }
extern void *__libc_malloc(size_t), *__libc_calloc(size_t, size_t);
extern void *__libc_realloc(void *, size_t), *__libc_memalign(size_t, size_t);
void *malloc(size_t n) { if (refused()) { errno = ENOMEM; return 0; } return __libc_malloc(n); }
void *calloc(size_t n, size_t m) { if (refused()) { errno = ENOMEM; return 0; } return __libc_calloc(n, m); }
void *realloc(void *p, size_t n) { if (refused()) { errno = ENOMEM; return 0; } return __libc_realloc(p, n); }
void *aligned_alloc(size_t a, size_t n) { if (refused()) { errno = ENOMEM; return 0; } return __libc_memalign(a, n); }
int posix_memalign(void **p, size_t a, size_t n) {
    if (refused()) return ENOMEM;
    *p = __libc_memalign(a, n);
    return *p ? 0 : ENOMEM;
}
int pthread_create(pthread_t *thread, const pthread_attr_t *how, void *(*body)(void *), void *given) {
    static int (*create)(pthread_t *, const pthread_attr_t *, void *(*)(void *), void *);
    if (!create) create = (int (*)(pthread_t *, const pthread_attr_t *, void *(*)(void *), void *))
        dlsym(RTLD_NEXT, "pthread_create");
    __sync_add_and_fetch(&threads, 1);
    return create(thread, how, body, given);
}
"""


def build(folder):
    """Builds the library in a folder by `cc`, and returns its path."""
    path = os.path.join(folder, "shim.so")
    Path(path + ".c").write_text(SOURCE, encoding="utf-8")
    subprocess.run(["cc", "-O1", "-shared", "-fPIC", "-fno-builtin", "-o", path, path + ".c"], check=True)
    return path


class Watched:
    """Runs of one program by the same words on the same input, behind the library."""

    def __init__(self, shim, program, words, source):
        self.shim, self.program, self.words, self.source = shim, program, words, source

    def run(self, number, tells=None):
        """Runs it with this request refused, from 1, or with none by 0. The end of a pipe gets the counts."""
        env = {**os.environ, "LD_PRELOAD": self.shim, "REFUSE": str(number)}
        if tells is not None:
            env["REFUSE_TELLS"] = str(tells)
        passed = () if tells is None else (tells,)
        return subprocess.run([self.program, *self.words], input=self.source, capture_output=True, env=env, timeout=60,
                              pass_fds=passed)

    def whole(self):
        """Returns the run in which no request is refused, its requests for memory, and the threads it started."""
        told, tells = os.pipe()
        done = self.run(0, tells)
        os.close(tells)
        requests, threads = (int(word) for word in os.read(told, 64).split())
        os.close(told)
        return done, requests, threads
