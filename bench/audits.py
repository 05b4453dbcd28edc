#!/usr/bin/env python3
"""bench/audits.py [RUNS]: the time of `cheric audit` on the largest files that are built.

For each of a few statements the program that repeats it most often within the limit of weight is built. Each line
has the bytes of its text and of its file, and the median and the greatest time of RUNS audits (21 by default), each a
process of its own. It needs what ./cheric needs. It proves nothing and is no part of the gate."""
import os
import statistics
import sys
import tempfile
import time

from calls import answer_of, parser, timed
from size import text_size

STATEMENTS = (
    ("calls of malloc", "", "malloc(1);"),
    ("long constants", "long x;", "x=0x123456789abcdef;"),
    ("divisions", "signed char x=7;", "x=x/x;"),
    ("conditions", "int x=7;", "if(x<9&&x)x=1;"),
    ("accesses", "int a[9],i=3;", "a[i]=a[i];"),
)


def source(head, statement, count):
    return f"int main(void){{{head}{statement * count}return 0;}}"


class Largest:
    """The program of the most statements of a kind that is built: their number, and the sizes of its text and file."""

    def __init__(self, cheric, folder, head, statement):
        self.name, self.built = f"{folder}/a.elf", f"{folder}/b.elf"
        self.count, refused = 0, 8192
        while refused - self.count > 1:
            middle = (self.count + refused) // 2
            if self.is_built(cheric, f"{folder}/a.c", source(head, statement, middle)):
                self.count = middle
                os.replace(self.built, self.name)
            else:
                refused = middle
        self.text, self.file = text_size(self.name), os.path.getsize(self.name)

    def is_built(self, cheric, name, text):
        with open(name, "w", encoding="utf-8") as file:
            file.write(text)
        return answer_of([cheric, "build", name, "--out", self.built]).status == 0


def audited(cheric, name):
    """The milliseconds of one audit, which must say yes."""
    start = time.monotonic()
    answer = answer_of([cheric, "audit", name])
    taken = time.monotonic() - start
    if answer.line != "audit yes":
        raise SystemExit(f"{name}: {answer}")
    return taken * 1000


def main():
    words = parser(__doc__)
    words.add_argument("runs", nargs="?", type=int, default=21)
    words = words.parse_args()
    cheric = timed(words.cheric)
    print("| Statements | Text, bytes | File, bytes | `cheric audit`, median | greatest |")
    print("|---|---|---|---|---|")
    for name, head, statement in STATEMENTS:
        with tempfile.TemporaryDirectory() as folder:
            largest = Largest(cheric, folder, head, statement)
            times = [audited(cheric, largest.name) for _ in range(words.runs)]
        median = statistics.median(times)
        built = f"{largest.count} {name} | {largest.text:,} | {largest.file:,}"
        print(f"| {built} | {median:.1f} ms | {max(times):.1f} ms |", flush=True)
    return 0


if __name__ == "__main__":
    sys.exit(main())
