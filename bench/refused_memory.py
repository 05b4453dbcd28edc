#!/usr/bin/env python3
"""bench/refused_memory.py [--only NAME]: the proved command with one allocation refused at a time.

Three files (one that puts two bytes, one that calls itself, one that counts the words of its input) in each of the
modes `run`, `build`, `exec`, `map` and `list`, and `gen 3`. A line of words runs once for each number from 1 on, with
the allocation of that number refused, until a run makes fewer. The answer must be the line's own, or that of `memory`
with nothing put and no file. A library before the C library's counts the allocations; gcc builds it. Each line printed
has a file, a mode, and how many allocations were refused. It needs what ./cheric needs, and gcc. It proves nothing and
is no part of the gate."""
import argparse
import os
import subprocess
import sys
import tempfile

from calls import ROOT, timed

MEMORY = 30
MODES = ("run", "build", "exec", "map", "list")
MOST = 100_000
FILES = {
    "hi": ("int main(void){putchar(72);putchar(105);return 0;}", b""),
    "calls": ("int f(int n){return n<2?1:n*f(n-1);}int main(void){putchar(65);return f(5);}", b""),
    "words": (None, b"to be or not to be\n"),
}
COUNTS = r"""
#define _GNU_SOURCE
#include <dlfcn.h>
#include <stddef.h>
#include <stdlib.h>
static long wanted = -1, made;
__attribute__((constructor)) static void begin(void) {
    const char *number = getenv("REFUSED");
    made = 0;
    wanted = number ? atol(number) : -1;
}
static int is_refused(void) { return wanted > 0 && ++made == wanted; }
__attribute__((destructor)) static void end(void) {
    if (wanted > 0 && made < wanted) _Exit(99);
}
#define NEXT(type, name) static type next; if (!next) next = (type)dlsym(RTLD_NEXT, name)
typedef void *(*of_size)(size_t);
typedef void *(*of_two)(size_t, size_t);
typedef void *(*of_old)(void *, size_t);
typedef int (*of_place)(void **, size_t, size_t);
void *malloc(size_t n) { NEXT(of_size, "malloc"); return is_refused() ? NULL : next(n); }
void *aligned_alloc(size_t a, size_t n) { NEXT(of_two, "aligned_alloc"); return is_refused() ? NULL : next(a, n); }
void *realloc(void *p, size_t n) { NEXT(of_old, "realloc"); return is_refused() ? NULL : next(p, n); }
int posix_memalign(void **p, size_t a, size_t n) {
    NEXT(of_place, "posix_memalign");
    return is_refused() ? 12 : next(p, a, n);
}
"""
FEWER = 99


class Command:
    """The command over a folder of its own, with the library that counts allocations."""

    def __init__(self, program, folder):
        self.program, self.folder, self.library = program, folder, f"{folder}/counts.so"
        self.file, self.elf = f"{folder}/a.c", f"{folder}/a.c.elf"
        with open(f"{folder}/counts.c", "w", encoding="utf-8") as file:
            file.write(COUNTS)
        subprocess.run(["gcc", "-shared", "-fPIC", "-O1", "-o", self.library, f"{folder}/counts.c", "-ldl"], check=True)

    def holds(self, name):
        """The file of that name is the folder's, and its input is given."""
        text, given = FILES[name]
        if text is None:
            with open(f"{ROOT}/examples/{name}.c", encoding="utf-8") as file:
                text = file.read()
        with open(self.file, "w", encoding="utf-8") as file:
            file.write(text)
        return given

    def answer(self, words, given, number):
        """What a run puts, its line, its status, and whether `build` left a file; an allocation is refused, or none."""
        if words[0] == "build" and os.path.exists(self.elf):
            os.remove(self.elf)
        around = {**os.environ, "LD_PRELOAD": self.library, **({"REFUSED": str(number)} if number else {})}
        run = subprocess.run([self.program, *words], env=around, input=given, capture_output=True, check=False)
        return run.stdout, run.stderr, run.returncode, words[0] == "build" and os.path.exists(self.elf)

    def refused(self, name, words, given):
        """How many answers are neither the line's own nor that of `memory`, one for each number of allocation."""
        own, otherwise = self.answer(words, given, 0), 0
        for number in range(1, MOST):
            got = self.answer(words, given, number)
            if got[2] == FEWER:
                print(f"{name} {words[0]}: {number - 1} allocations refused, {otherwise} answered otherwise",
                      flush=True)
                return otherwise
            if got not in (own, (b"", b"memory\n", MEMORY, False)):
                otherwise += 1
                print(f"{name} {words[0]} {number}: {got}", flush=True)
        raise SystemExit(f"{name} {words[0]}: more than {MOST} allocations")

    def in_each_mode(self, name):
        """The answers that are otherwise in all modes. `exec` takes the file that `build` leaves."""
        given, otherwise = self.holds(name), 0
        for mode in MODES:
            if mode == "exec":
                self.answer(["build", self.file], given, 0)
            otherwise += self.refused(name, [mode, self.elf if mode == "exec" else self.file], given)
        return otherwise


def main():
    words = argparse.ArgumentParser(description=__doc__, formatter_class=argparse.RawDescriptionHelpFormatter)
    words.add_argument("--only", choices=[*FILES, "gen"])
    only, otherwise = words.parse_args().only, 0
    with tempfile.TemporaryDirectory() as folder:
        command = Command(timed(), folder)
        otherwise += sum(command.in_each_mode(name) for name in FILES if only in (None, name))
        if only in (None, "gen"):
            otherwise += command.refused("gen", ["gen", "3"], b"")
    print(f"{otherwise} answered otherwise")
    return 1 if otherwise else 0


if __name__ == "__main__":
    sys.exit(main())
