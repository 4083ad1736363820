"""Refuses each request for memory of a test in turn, and each start of a thread, and wants the test to pass every time.

Of the tests that `rt ci` and `rt test` leave as `crates/NAME/out/NAME_tests` those in a module `refused` are run, which hold whichever
request is refused: for n = 1, 2, .. the n-th request of the run is refused, until a run makes fewer. A test that makes no request says
nothing, and fails. Of oth_pool it is seen too that worked boards over a table of 64 cells make more requests than without one by more
than the table alone takes, so that the workers' seats of the table are asked for. It needs `cc`.
"""
import os
import tempfile

from running import Preloaded, tests_of

# Stands in front of the C library: counts in the file COUNTED, and refuses the request of the number REFUSED.
REFUSING = r"""
#define _GNU_SOURCE
#include <dlfcn.h>
#include <errno.h>
#include <fcntl.h>
#include <pthread.h>
#include <stdatomic.h>
#include <stdlib.h>
#include <sys/mman.h>

extern void *__libc_malloc(size_t);
extern void *__libc_calloc(size_t, size_t);
extern void *__libc_realloc(void *, size_t);

static _Atomic long *counted;
static long refused;

__attribute__((constructor)) static void start(void) {
    const char *file = getenv("COUNTED"), *number = getenv("REFUSED");
    int opened = file ? open(file, O_RDWR) : -1;
    void *page = opened < 0 ? MAP_FAILED : mmap(0, sizeof(long), PROT_READ | PROT_WRITE, MAP_SHARED, opened, 0);
    refused = number ? atol(number) : 0;
    counted = page == MAP_FAILED ? 0 : page;
}

static int is_refused(void) { return counted && atomic_fetch_add(counted, 1) + 1 == refused; }

void *malloc(size_t size) {
    if (!is_refused()) return __libc_malloc(size);
    errno = ENOMEM;
    return 0;
}

void *calloc(size_t count, size_t size) {
    if (!is_refused()) return __libc_calloc(count, size);
    errno = ENOMEM;
    return 0;
}

void *realloc(void *block, size_t size) {
    if (!is_refused()) return __libc_realloc(block, size);
    errno = ENOMEM;
    return 0;
}

int pthread_create(pthread_t *thread, const pthread_attr_t *attributes, void *(*body)(void *), void *argument) {
    int (*create)(pthread_t *, const pthread_attr_t *, void *(*)(void *), void *) = dlsym(RTLD_NEXT, "pthread_create");
    return is_refused() ? EAGAIN : create(thread, attributes, body, argument);
}
"""


# The crates that have tests of refusals, with the modules in which these stand.
MODULES = {
    "oth_search_tests": ("tests::limited::refused",),
    "oth_table_tests": ("tests::refused",),
    "oth_book_tests": ("tests::refused",),
    "oth_pieces_tests": ("tests::refused",),
    "oth_pool_tests": ("tests::refused",),
    "oth_batch_tests": ("tests::refused",),
    "oth_run_tests": ("tests::refused",),
    "oth_main_tests": ("tests::refused",),
}


# Tests of oth_pool of one search, over 64 cells and without.
WITH_AND_WITHOUT = {
    "a_over_64_cells": "a_without_cells",
    "workers_together_over_64_cells": "workers_together_without_cells",
}


class Walk:
    """Runs of one program of tests, with a request refused."""

    def __init__(self, program, folder):
        self.program = os.path.abspath(program)
        self.library = Preloaded(folder, REFUSING, 1)

    def tests(self):
        """Returns the tests that hold whichever request is refused."""
        return [name for name in tests_of(self.program) if "::refused::" in name]

    def run(self, test, refused):
        """Tells what is wrong with the run, if anything, and how many requests it made."""
        done, (count,) = self.library.ran([self.program, test], REFUSED=str(refused))
        if done.status == 0:
            return None, count
        told = (done.wrote + done.said).decode(errors="replace")
        return f"status {done.status} where request {refused} is refused (0: none)\n{told}", count

    def all(self, test):
        """Tells what is wrong with the test, if anything, and the requests that it makes where none is refused."""
        wrong, count = self.run(test, 0)
        if wrong is None and count == 0:
            wrong = "it makes no request, so none was refused"
        refused = 0
        made = count
        while wrong is None and made >= refused:
            refused += 1
            wrong, made = self.run(test, refused)
        return wrong, count


def steps(crates):
    """Yields a step for each test of refusals of the crates in the folder `crates`: its name, and what is wrong with it, if anything."""
    for crate, modules in MODULES.items():
        with tempfile.TemporaryDirectory() as folder:
            walk = Walk(f"{crates}/{crate}/out/{crate}_tests", folder)
            counts = {}
            tests = walk.tests()
            for module in modules:
                if not any(test.startswith(f"{module}::") for test in tests):
                    yield f"{crate} has tests of refusals in {module}", "there are none"
            if not tests:
                continue
            for test in tests:
                wrong, counts[test.rsplit("::", 1)[1]] = walk.all(test)
                yield f"{test}: holds whichever request is refused", wrong
            if crate == "oth_pool_tests":
                for over, without in WITH_AND_WITHOUT.items():
                    yield f"{over}: 64 cells take more requests than none, by more than the table alone takes", table(counts, over, without)


def table(counts, over, without):
    """Tells what is wrong with the numbers of requests of these two tests, if anything."""
    more = counts[over] - counts[without]
    alone = counts["a_table_of_64_cells"]
    return None if more > alone else f"{more} requests more, the table alone {alone}"
