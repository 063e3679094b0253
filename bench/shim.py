"""A library that is loaded in front of the C library, and refuses one call for memory, all large ones, or one start of
a thread.
"""
import os
import shutil
import subprocess
import sys

# Lets the call of a number fail, and each that asks for more bytes than MOST_BYTES, and tells when one does.
SHIM = r"""
#define _GNU_SOURCE
#include <dlfcn.h>
#include <errno.h>
#include <pthread.h>
#include <stdatomic.h>
#include <stdlib.h>
#include <unistd.h>
extern void *__libc_malloc(size_t);
extern void *__libc_realloc(void *, size_t);
static atomic_long asked, started;
static long number(const char *name) {
    const char *text = getenv(name);
    return text ? atol(text) : 0;
}
static int is_refused(atomic_long *calls, const char *name, size_t size) {
    long most = number("MOST_BYTES");
    int is_large = most && size > (size_t)most;
    if (atomic_fetch_add(calls, 1) + 1 != number(name) && !is_large) return 0;
    const char *tell = getenv("TELL");
    if (tell && write(atoi(tell), "x", 1) != 1) abort();
    errno = ENOMEM;
    return 1;
}
void *malloc(size_t size) { return is_refused(&asked, "REFUSED", size) ? NULL : __libc_malloc(size); }
void *realloc(void *old, size_t size) { return is_refused(&asked, "REFUSED", size) ? NULL : __libc_realloc(old, size); }
int pthread_create(pthread_t *thread, const pthread_attr_t *attr, void *(*run)(void *), void *with) {
    int (*real)(pthread_t *, const pthread_attr_t *, void *(*)(void *), void *) = dlsym(RTLD_NEXT, "pthread_create");
    return is_refused(&started, "REFUSED_THREAD", 0) ? EAGAIN : real(thread, attr, run, with);
}
"""


def compiled(folder):
    """Compiles it into a folder, and returns its path."""
    source, shim = os.path.join(folder, "refuse.c"), os.path.join(folder, "refuse.so")
    with open(source, "w") as out:
        out.write(SHIM)
    compiler = shutil.which("cc") or shutil.which("clang") or sys.exit("no C compiler is in PATH")
    subprocess.run([compiler, "-O1", "-shared", "-fPIC", "-o", shim, source], check=True)
    return shim


def run_refusing(words, shim, refused, source=os.devnull, what="REFUSED"):
    """How a run ends whose call with this number is refused, and whether one was. The calls are those for memory, or
    with `REFUSED_THREAD` the starts of threads; with `MOST_BYTES` the number is the most that a call may ask for."""
    told, tell = os.pipe()
    with open(source, "rb") as stdin:
        ran = subprocess.run(
            words, stdin=stdin, capture_output=True, pass_fds=[tell],
            env={"LD_PRELOAD": shim, what: str(refused), "TELL": str(tell)},
        )
    os.close(tell)
    with os.fdopen(told, "rb") as text:
        was_refused = text.read() != b""
    return (ran.returncode, ran.stdout, ran.stderr), was_refused
