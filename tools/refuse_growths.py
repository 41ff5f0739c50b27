#!/usr/bin/env python3
"""Refuses each growth of the main program's memory in turn, one in a run: such a run must end with status 6, and write nothing.

    tools/refuse_growths.py [--program PATH] [SCRIPT.json ..]

With no script it takes five: one entry, a stop that waits, a virtio-fs session, a round of the dirty log, and the word `make` with the number 3.
A growth is a call for memory (malloc, calloc, realloc, aligned_alloc, posix_memalign) that the program makes once it runs; a small library,
compiled here with the C compiler and loaded before the C library, counts them and refuses the one that it is told to. A script is played once
with none refused, for its count and its text, and then once for each growth. One other ending is right: std's `collect` asks for the room that it
is going to want, and where that is refused it asks for the same again at its first element; such a run, whose next call asked for as many bytes,
must end with the whole text and status 0. The last line has the counts; a run that ends in another way is printed, and the status is then 1. It
wants the proved program (cd crates/share && rt run makes it).
"""
import argparse
import mmap
import os
import struct
import subprocess
import sys
import tempfile

TOP = os.path.dirname(os.path.dirname(os.path.abspath(__file__)))
SCRIPTS = ["hello", "stop_waits", "directory", "log_round"]
NO_MEMORY = 6

# The file that GROWTHS names holds four numbers: the calls so far, the one to refuse (0: none), the bytes that it asked for, and those of the next.
SHIM = r"""
#define _GNU_SOURCE
#include <dlfcn.h>
#include <errno.h>
#include <fcntl.h>
#include <stdint.h>
#include <stdlib.h>
#include <sys/mman.h>

static volatile uint64_t *count;
static void *(*next_malloc)(size_t);
static void *(*next_calloc)(size_t, size_t);
static void *(*next_realloc)(void *, size_t);
static void *(*next_aligned)(size_t, size_t);
static int (*next_memalign)(void **, size_t, size_t);
static char early[65536];
static size_t early_used;

__attribute__((constructor)) static void begin(void) {
    next_malloc = dlsym(RTLD_NEXT, "malloc");
    next_calloc = dlsym(RTLD_NEXT, "calloc");
    next_realloc = dlsym(RTLD_NEXT, "realloc");
    next_aligned = dlsym(RTLD_NEXT, "aligned_alloc");
    next_memalign = dlsym(RTLD_NEXT, "posix_memalign");
    int file = open(getenv("GROWTHS"), O_RDWR);
    void *at = mmap(0, 32, PROT_READ | PROT_WRITE, MAP_SHARED, file, 0);
    count = at == MAP_FAILED ? 0 : at;
}

static int is_refused(size_t size) {
    if (!count) return 0;
    uint64_t number = ++count[0];
    if (number == count[1]) count[2] = size;
    if (number == count[1] + 1) count[3] = size;
    return number == count[1];
}

void *malloc(size_t size) {
    if (!next_malloc) begin();
    return is_refused(size) ? 0 : next_malloc(size);
}
void *calloc(size_t number, size_t size) {
    if (!next_calloc) { /* dlsym itself may ask, before it can answer */
        void *at = early + early_used;
        early_used += (number * size + 15) & ~(size_t)15;
        return early_used <= sizeof early ? at : 0;
    }
    return is_refused(number * size) ? 0 : next_calloc(number, size);
}
void *realloc(void *old, size_t size) { return is_refused(size) ? 0 : next_realloc(old, size); }
void *aligned_alloc(size_t align, size_t size) { return is_refused(size) ? 0 : next_aligned(align, size); }
int posix_memalign(void **to, size_t align, size_t size) {
    return is_refused(size) ? ENOMEM : next_memalign(to, align, size);
}
"""


def compiled(folder):
    """The library, compiled into this folder."""
    source, made = os.path.join(folder, "growths.c"), os.path.join(folder, "growths.so")
    with open(source, "w", encoding="utf-8") as it:
        it.write(SHIM)
    subprocess.run([os.environ.get("CC", "cc"), "-O1", "-shared", "-fPIC", "-o", made, source, "-ldl"], check=True)
    return made


class Player:
    """Plays the program with growths counted, and at most one refused."""

    def __init__(self, program, folder):
        self.program, self.count = program, os.path.join(folder, "count")
        with open(self.count, "wb") as it:
            it.write(bytes(32))
        self.environment = {**os.environ, "LD_PRELOAD": compiled(folder), "GROWTHS": self.count}

    def play(self, words, text, refused):
        """Status and standard output of one run, the number of its growths, and whether the refused one was asked for again."""
        with open(self.count, "r+b") as file, mmap.mmap(file.fileno(), 32) as at:
            at[:] = struct.pack("QQQQ", 0, refused, 0, 0)
            ran = subprocess.run([self.program, *words], input=text, capture_output=True, env=self.environment, timeout=60)
            growths, _, asked, again = struct.unpack("QQQQ", at[:])
            return ran.returncode, ran.stdout, growths, asked == again


def counted_runs(player, words, text):
    """The number of growths of a run; how many of the runs without one of them ended with status 6, and how many with the text; and the others."""
    status, said, growths, _ = player.play(words, text, 0)
    if status or not said or not growths:
        return growths, 0, 0, [f"with none refused it ends with status {status}, {len(said)} bytes and {growths} growths"]
    ended, went_on, odd = 0, 0, []
    for number in range(1, growths + 1):
        status, written, _, is_again = player.play(words, text, number)
        if status == NO_MEMORY and not written:
            ended += 1
        elif status == 0 and written == said and is_again:
            went_on += 1
        else:
            odd.append(f"with growth {number} refused it ends with status {status} and {len(written)} bytes")
    return growths, ended, went_on, odd


def main():
    reader = argparse.ArgumentParser(description=__doc__.splitlines()[0])
    reader.add_argument("scripts", nargs="*", metavar="SCRIPT.json")
    reader.add_argument("--program", default=os.path.join(TOP, "crates", "share", "out", "share"))
    given = reader.parse_args()
    if not os.access(given.program, os.X_OK):
        sys.exit(f"refuse_growths: {given.program} is not there (cd crates/share && rt run makes it)")
    cases = [(os.path.basename(it), [], it) for it in given.scripts]
    if not cases:
        cases = [(it, [], os.path.join(TOP, "examples", f"{it}.json")) for it in SCRIPTS] + [("make 3", ["make", "3"], os.devnull)]
    sums = [0, 0, 0, 0]
    with tempfile.TemporaryDirectory() as folder:
        player = Player(given.program, folder)
        for name, words, file in cases:
            with open(file, "rb") as it:
                growths, ended, went_on, odd = counted_runs(player, words, it.read())
            print(f"{name}: {growths} growths; refused, {ended} end with status {NO_MEMORY} and nothing written, {went_on} were asked for again", flush=True)
            for line in odd:
                print(f"{name}: {line}")
            sums = [a + b for a, b in zip(sums, (growths, ended, went_on, len(odd)))]
    print(f"{sums[0]} growths in {len(cases)} scripts, each refused once: {sums[1]} with status {NO_MEMORY}, {sums[2]} asked for again, {sums[3]} odd")
    return 1 if sums[3] else 0


if __name__ == "__main__":
    sys.exit(main())
