"""A library that is loaded before the C library's, and has one allocation of a program fail, or counts them all."""

import os
import subprocess

SOURCE = r"""
#define _GNU_SOURCE
#include <dlfcn.h>
#include <errno.h>
#include <fcntl.h>
#include <stdlib.h>
#include <sys/mman.h>
#include <unistd.h>
static long at = -1, own, *done = &own;
static const char *told;
/* What the C library itself allocates before the program's main begins is not the program's. */
__attribute__((constructor)) static void begin(void) {
  const char *word = getenv("FAIL_AT");
  told = getenv("FAIL_TOLD");
  at = word ? atol(word) : 0;
  /* A program may end without a call of the C library's, so the count lies in a file all the time. */
  const char *counted = getenv("COUNT_TOLD");
  int file = counted ? open(counted, O_RDWR | O_CREAT, 0600) : -1;
  if (file >= 0 && ftruncate(file, sizeof own) == 0) {
    void *shared = mmap(0, sizeof own, PROT_READ | PROT_WRITE, MAP_SHARED, file, 0);
    if (shared != MAP_FAILED) done = shared;
  }
}
static int fails(void) {
  if (at <= 0 || __sync_add_and_fetch(done, 1) != at) return 0;
  int file = told ? open(told, O_WRONLY | O_CREAT, 0600) : -1;
  if (file >= 0) close(file);
  return 1;
}
static void *next(const char *name) { return dlsym(RTLD_NEXT, name); }
void *malloc(size_t size) {
  static void *(*real)(size_t);
  if (!real) real = (void *(*)(size_t))next("malloc");
  if (fails()) { errno = ENOMEM; return 0; }
  return real(size);
}
void *realloc(void *old, size_t size) {
  static void *(*real)(void *, size_t);
  if (!real) real = (void *(*)(void *, size_t))next("realloc");
  if (fails()) { errno = ENOMEM; return 0; }
  return real(old, size);
}
void *aligned_alloc(size_t to, size_t size) {
  static void *(*real)(size_t, size_t);
  if (!real) real = (void *(*)(size_t, size_t))next("aligned_alloc");
  if (fails()) { errno = ENOMEM; return 0; }
  return real(to, size);
}
int posix_memalign(void **place, size_t to, size_t size) {
  static int (*real)(void **, size_t, size_t);
  if (!real) real = (int (*)(void **, size_t, size_t))next("posix_memalign");
  if (fails()) return ENOMEM;
  return real(place, to, size);
}
"""


def made_in(folder, text=SOURCE):
    """The library of a text, compiled in a folder."""
    source, shim = os.path.join(folder, "shim.c"), os.path.join(folder, "shim.so")
    with open(source, "w") as out:
        out.write(text)
    subprocess.run(["gcc", "-shared", "-fPIC", "-O1", "-o", shim, source, "-ldl"], check=True)
    return shim


class Failing:
    """The environment of a program of which an allocation fails, counted from 1. Whether there was such a one is told by a file."""

    def __init__(self, shim, at, name=""):
        self.at = at
        self.told = f"{shim}.{name}.{at}"
        self.env = {**os.environ, "FAIL_AT": str(at), "FAIL_TOLD": self.told, "LD_PRELOAD": shim}

    def was_refused(self):
        """Whether the allocation was asked for since this was asked last."""
        was = os.path.exists(self.told)
        if was:
            os.remove(self.told)
        return was

    @classmethod
    def each(cls, shim, name="", step=1):
        """One for each allocation that a program makes, or every so many, and one for an allocation that it does not make. What is done
        with it runs the program. Where this is done side by side, each has a name."""
        failing = cls(shim, 1, name)
        while True:
            yield failing
            if not failing.was_refused():
                return
            failing = cls(shim, failing.at + step, name)


def counted(shim, run):
    """How many allocations a program makes that is run in the environment which `run` is given."""
    told = f"{shim}.counted"
    # An allocation that no program comes to.
    run({**os.environ, "FAIL_AT": str(1 << 60), "COUNT_TOLD": told, "LD_PRELOAD": shim})
    with open(told, "rb") as file:
        count = int.from_bytes(file.read(), "little")
    os.remove(told)
    return count
