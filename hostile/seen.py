"""Looks at what no answer shows: that the program starts the threads and makes the table that it is asked for, and reads the longest book.

A small C library, put in front of the C library, counts the threads that are started and the bytes that are asked for. It needs `cc`.
"""
import os
import tempfile

from running import Preloaded, Ran, board_lines, book_of, file_of, ran

SEED = 20261127
# What is counted: threads that are started, bytes that are asked for at once where they are at least as many as a small table has,
# threads that are there beside the first one, and the most of these at once.
COUNTING = r"""
#define _GNU_SOURCE
#include <dlfcn.h>
#include <fcntl.h>
#include <pthread.h>
#include <stdatomic.h>
#include <stdlib.h>
#include <sys/mman.h>

extern void *__libc_malloc(size_t);
extern void *__libc_calloc(size_t, size_t);
extern void *__libc_realloc(void *, size_t);
extern void __libc_free(void *);

static _Atomic long *counted;

__attribute__((constructor)) static void start(void) {
    const char *file = getenv("COUNTED");
    int opened = file ? open(file, O_RDWR) : -1;
    void *page = opened < 0 ? MAP_FAILED : mmap(0, 4 * sizeof(long), PROT_READ | PROT_WRITE, MAP_SHARED, opened, 0);
    counted = page == MAP_FAILED ? 0 : page;
}

static void count(int number, long size) {
    if (counted) atomic_fetch_add(counted + number, size);
}

static void ask(size_t size) {
    if (size >= 1000) count(1, (long)size);
}

void *malloc(size_t size) {
    ask(size);
    return __libc_malloc(size);
}

void *calloc(size_t number, size_t size) {
    ask(number * size);
    return __libc_calloc(number, size);
}

void *realloc(void *block, size_t size) {
    ask(size);
    return __libc_realloc(block, size);
}

struct work {
    void *(*body)(void *);
    void *argument;
};

static void begins(void) {
    if (!counted) return;
    long now = atomic_fetch_add(counted + 2, 1) + 1, most = atomic_load(counted + 3);
    while (most < now && !atomic_compare_exchange_weak(counted + 3, &most, now)) {}
}

static void *worked(void *given) {
    struct work work = *(struct work *)given;
    __libc_free(given);
    void *result = work.body(work.argument);
    count(2, -1);
    return result;
}

int pthread_create(pthread_t *thread, const pthread_attr_t *attributes, void *(*body)(void *), void *argument) {
    int (*create)(pthread_t *, const pthread_attr_t *, void *(*)(void *), void *) = dlsym(RTLD_NEXT, "pthread_create");
    struct work *work = __libc_malloc(sizeof *work);
    if (!work) abort();
    *work = (struct work){body, argument};
    count(0, 1);
    begins();
    int refused = create(thread, attributes, worked, work);
    if (refused) count(2, -1);
    return refused;
}
"""
ENTRIES = 100_000
LONGEST = 9_000_020
# The squares of the rows 6 to 8 that no line of discs from d1 meets.
OUT_OF_REACH = (45, 46, 47, 48, 49, 50, 52, 53, 54, 55, 56, 57, 58, 60, 61, 62, 63)
CELLS = ("0", "64", "65536")
# In bytes, of which a cell takes 32: what 64 cells take, and less than is taken by those that a board of 13 empty squares can use.
FEW_CELLS = 64 * 32
MORE_CELLS = 1024 * 32
# In kB.
LITTLE_MEMORY = range(8_000, 52_001, 4_000)
LONGEST_OK = Ran(0, b"book ok 100000\n", b"")
NO_TEXT = Ran(3, b"", b"book error 7\n")
NO_ENTRIES = Ran(3, b"", b"book wrong 4\n")
UNDER = 'ulimit -v "$0" && exec "$@"; exit 99'


def counts(library, words, given):
    """Returns the threads that a run starts, the bytes that it asks for, the threads that are left and the most at once; (-1, ..) where
    it ends with another status than 0."""
    done, numbers = library.ran(words, given)
    return numbers if done.status == 0 else (-1,) * 4


def threads_wrong(library, words, given, most):
    """Tells what is wrong with the threads that a run by 4 workers starts beside one by 1, if anything: at most `most` are to be
    there at once beside the first one, and another one that may be the program's own."""
    (alone, *_), (by_four, _, _, at_once) = (counts(library, [*words, "--workers", workers], given) for workers in ("1", "4"))
    if 0 <= alone < 2 and by_four >= max(3, alone + 2) and at_once <= most + alone:
        return None
    return f"1 worker starts {alone} threads, and 4 start {by_four}, {at_once} at once"


def cells_wrong(library, words, given):
    """Tells what is wrong with the bytes that runs with more and more cells ask for, if anything."""
    none, few, many = (counts(library, [*words, "--cells", cells], given)[1] for cells in CELLS)
    if 0 <= none and few >= none + FEW_CELLS and many >= few + MORE_CELLS:
        return None
    return f"{none}, {few} and {many} bytes are asked for"


def book_wrong(library, words, boards):
    """Tells what is wrong with a run over a book and its boards, if anything: its answers are the book's, and no table is made for them."""
    none, known = (counts(library, words, given)[1] for given in (b"", boards))
    if 0 <= none and known < none + MORE_CELLS:
        return None
    return f"{none} bytes are asked for without a line, and {known} with the book's boards"


def settings(program, library, folder):
    """Tests that each command that takes numbers of workers and of cells obeys them."""
    boards, large = board_lines(SEED, 8, 13), board_lines(SEED, 1, 18)
    book, empty = book_of(program, folder, boards), f"{folder}/empty.book"
    mixed = boards + board_lines(SEED, 1, 16)
    for name, words, given, most in (
        ("solve, a board of 18 empty squares", ["solve"], large, 4),
        ("solve, a board of 14", ["solve"], board_lines(SEED, 1, 14), 4),
        ("solve, 8 boards of 13", ["solve"], boards, 4),
        ("solve, 8 boards of 13 and one of 16, which 4 workers search together", ["solve"], mixed, 8),
        ("scores, 8 boards of 13", ["scores"], boards, 4),
        ("solve --book, a book of 8 boards and no line", ["solve", "--book", book], b"", 4),
        ("book-add, 8 boards of 13", ["book-add", empty], boards, 4),
        ("book-add, a book of 8 boards and no line", ["book-add", book], b"", 4),
    ):
        yield f"4 workers are seen, and no more: {name}", threads_wrong(library, [program, *words], given, most)
        yield f"--cells {', '.join(CELLS)} are seen: {name}", cells_wrong(library, [program, *words], given)
    yield "the book is asked: solve --book, its 8 boards", book_wrong(library, [program, "solve", "--book", book], boards)
    started = counts(library, [program, "book-verify", book], b"")[0]
    several = len(os.sched_getaffinity(0)) > 1
    yield "book-verify starts threads where there are processors", f"it starts {started}" if several and started < 1 else None


def longest_book():
    """Returns the longest book: boards where nobody can move, with one disc of the mover, on d1, and the other side on most squares."""
    line = bytearray(b"OOOX" + b"O" * 60 + b" -62 -62 0000000000000000\n")
    lines = []
    for number in range(ENTRIES):
        for place, square in enumerate(reversed(OUT_OF_REACH)):
            line[square] = b"-O"[number >> place & 1]
        lines.append(bytes(line))
    return b"".join((b"OBOOK2 W\n", *lines, b"END 100000\n"))


def long_books(program, folder):
    """Tests that the longest book is read to its end, and one byte more is seen."""
    book = longest_book()
    path, longer = file_of(folder, "longest.book", book), file_of(folder, "longer.book", book + b"\n")
    yield f"the longest book has {LONGEST} bytes", None if len(book) == LONGEST else f"{len(book)}"
    for name, words, wanted in (
        ("book-verify of the longest book", ["book-verify", path], LONGEST_OK),
        ("solve --book of the longest book", ["solve", "--book", path], Ran(0, b"", b"")),
        ("book-verify of one byte more", ["book-verify", longer], Ran(3, b"", b"book error 6\n")),
    ):
        done = ran([program, *words])
        yield name, None if done == wanted else f"{done}"
    yield "book-verify of the longest book in little memory", memory_wrong(program, path)


def memory_wrong(program, book):
    """Tells what is wrong with runs that have little memory, if anything. At least once it has to be wanting for the text of the book."""
    found = set()
    for memory in LITTLE_MEMORY:
        done = ran(["sh", "-c", UNDER, str(memory), program, "book-verify", book])
        if done not in (NO_TEXT, NO_ENTRIES, LONGEST_OK):
            return f"ulimit -v {memory}: {done}"
        found.add(done)
    return None if NO_TEXT in found else "memory is never wanting"


def steps(program):
    """Yields a step for each look: its name, and what is wrong, if anything."""
    with tempfile.TemporaryDirectory() as folder:
        library = Preloaded(folder, COUNTING, 4)
        yield from settings(program, library, folder)
        yield from long_books(program, folder)
