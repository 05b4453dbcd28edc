#!/usr/bin/env python3
"""bench/size.py [COUNT] [--record] [--cheric COMMAND]: sizes of texts and times of building against
`riscv64-linux-gnu-gcc`, and what stands in registers.

The programs are the file that `gen 64` generates, and COUNT programs of whole_programs.py (50 by default) that are
within the limit of weight. For each tool the bytes of all texts are summed, and the median of five builds of each
program. gcc's text is that of an object file, without a library: at -O0 with and without compressed instructions, which
cheric has none of, and at -O1. A text of cheric has the start and the allocation in line too.

A temp that has no register stands in a slot of its function's frame. A use of one is a load or a store of a slot, and a
use of a register is an operand c5 to c27; both are counted in the listed code between prologues and epilogues. The
instructions of a turn are found by the least limits of steps within which a loop of 1,000 turns ends, and one of 2,000.

The tables are Markdown; with --record they replace their section of docs/measurements.md. It needs what ./cheric needs,
and gcc-riscv64-linux-gnu. It proves nothing and is no part of the gate."""
import argparse
import collections
import re
import statistics
import struct
import subprocess
import sys
import tempfile
import time

from calls import ROOT, answer_of, prepared
from whole_programs import program

CHERIC = f"{ROOT}/crates/cheric_cli/out/cheric_cli"
GCC = ["riscv64-linux-gnu-gcc", "-w", "-fwrapv", "-funsigned-char", "-include", "stdint.h", "-include", "stddef.h",
       "-c"]
TOOLS = [("gcc -O0", ["-O0"]), ("gcc -O0, no compressed instructions", ["-O0", "-march=rv64imafd"]),
         ("gcc -O1", ["-O1"])]
LOOP = "int main(void){int s=0;int i;for(i=0;i<%d;i=i+1)s=s+i;return s;}\n"
PAGE, HEADING = f"{ROOT}/docs/measurements.md", "## Texts, registers and turns"
KEPT = [8, 9, *range(18, 28)]
ACCESS = re.compile(r"(lb|lh|lw|ld|lbu|lhu|lwu|clc|sb|sh|sw|sd|csc) ")
FRAME = re.compile(r"(clc|csc) c(\d+),(\d+)\(c2\)")


def generated(n):
    """The file that `gen` generates of n functions."""
    lines = [f"int f{k}(int x){{int a[8];int i;for(i=0;i<8;i=i+1)a[i]=x+i*{k + 3};return a[x&7]%251;}}" for k
             in range(n)]
    calls = "".join(f"s=f{k}(s);" for k in range(n))
    return "\n".join([*lines, f"int main(void){{int s;int n;s=1;for(n=0;n<100;n=n+1){{{calls}}}return s;}}"]) + "\n"


# Texts and times.


def text_size(name):
    """The size of the sections of an ELF64 file that are code."""
    with open(name, "rb") as file:
        data = file.read()
    at, = struct.unpack_from("<Q", data, 40)
    size, count = struct.unpack_from("<HH", data, 58)
    total = 0
    for k in range(count):
        _, kind, flags, _, _, length = struct.unpack_from("<IIQQQQ", data, at + k * size)
        total += length if kind == 1 and flags & 4 else 0
    return total


def built(words, target):
    """The bytes of text and the median time of five builds; None where it is not built."""
    times = []
    for _ in range(5):
        start = time.monotonic()
        run = subprocess.run(words, stdin=subprocess.DEVNULL, capture_output=True)
        times.append(time.monotonic() - start)
        if run.returncode:
            return None
    return text_size(target), statistics.median(times)


def measured(cheric, texts, work):
    """For each tool, cheric first, the bytes of all texts and the seconds of all builds."""
    source, target = f"{work}/p.c", f"{work}/p.out"
    tools = [("cheric", [cheric, "build", source, "--out", target])]
    tools += [(name, [*GCC, *words, source, "-o", target]) for name, words in TOOLS]
    sums = [(0, 0.0)] * len(tools)
    for text in texts:
        put(source, text)
        for k, (tool, words) in enumerate(tools):
            one = built(words, target)
            if one is None:
                raise SystemExit(f"{tool} does not build a program")
            sums[k] = sums[k][0] + one[0], sums[k][1] + one[1]
    return [(tool, *one) for (tool, _), one in zip(tools, sums)]


def table(title, rows, count):
    """The table of the tools, with the ratios of cheric to each."""
    _, size, took = rows[0]
    lines = [f"{title}:", "", "| Tool | Text, bytes | cheric's to it | Time, ms | cheric's to it |",
             "|---|---|---|---|---|"]
    for tool, other, time_of in rows:
        lines.append(f"| {tool} | {other:,} | {size / other:.2f} | {1000 * time_of / count:.1f} | "
                     f"{took / time_of:.2f} |")
    return [*lines, ""]


def light_enough(cheric, count):
    """The first programs that are not refused by their weight."""
    seed, texts = 0, []
    with tempfile.TemporaryDirectory() as work:
        while len(texts) < count:
            seed += 1
            put(f"{work}/p.c", program(seed))
            if answer_of([cheric, "build", f"{work}/p.c"]).line != "refused 142 1:1":
                texts.append(program(seed))
    return texts


def put(name, text):
    with open(name, "w", encoding="utf-8") as file:
        file.write(text)


# Registers and slots, in listed code.


def bodies(cheric, text, work):
    """The listed code of each function of a program, without its prologue and epilogues."""
    put(f"{work}/p.c", text)
    listed, mapped = (answer_of([cheric, mode, f"{work}/p.c"]).output.decode().splitlines() for mode in ("list", "map"))
    words = {int(line.split()[0]): line.split(None, 2)[2] for line in listed}
    entries = [int(line.split()[2]) for line in mapped if line.startswith("function ")]
    ends = [*entries[1:], max(words)]
    return [body([words[at] for at in range(entry, end, 4)]) for entry, end in zip(entries, ends)]


def body(words):
    """The code behind the stores of the link, the caller's stack and kept registers, without the words of returns."""
    start = words.index("csc c1,0(c2)") + 1
    start += words[start].startswith("csc c28,")
    while is_kept(words[start], "csc"):
        start += 1
    ends, dropped = [k for k in range(start, len(words)) if words[k] == "cjalr c0,0(c1)"], set()
    for end in ends:
        first = max(k for k in range(start, end) if words[k] == "clc c1,0(c2)")
        while first > start and is_kept(words[first - 1], "clc"):
            first -= 1
        dropped.update(range(first, end + 1))
    return [words[k] for k in range(start, len(words)) if k not in dropped]


def is_kept(word, name):
    found = FRAME.fullmatch(word)
    return bool(found) and found[1] == name and int(found[2]) in KEPT


def slots_of(code):
    """How often each slot is named: an offset in the frame that is loaded from."""
    found = [it for it in map(FRAME.fullmatch, code) if it and it[2] != "0"]
    loaded = {it[3] for it in found if it[1] == "clc"}
    return collections.Counter(it[3] for it in found if it[3] in loaded)


def registers_of(code):
    """How often registers are named in which temps stand."""
    return sum(5 <= int(n) <= 27 for word in code for n in re.findall(r"[cx](\d+)\b", word.split(" ", 1)[-1]))


def homes(cheric, texts, work):
    """Of all functions: how many there are, how many have no slot, all slots, and the uses of slots and registers."""
    functions = [code for text in texts for code in bodies(cheric, text, work)]
    slots = [slots_of(code) for code in functions]
    uses = sum(map(registers_of, functions))
    return len(functions), sum(not it for it in slots), sum(map(len, slots)), sum(sum(it.values()) for it
                                                                                  in slots), uses


# Turns of a loop.


def steps_of(cheric, turns, work):
    """The least limit of steps within which the loop ends."""
    put(f"{work}/p.c", LOOP % turns)
    low, high = 0, 1000 * turns
    while high - low > 1:
        middle = (low + high) // 2
        ended = answer_of([cheric, "run", f"{work}/p.c", "--steps", str(middle)]).line != "steps"
        low, high = (low, middle) if ended else (middle, high)
    return high


def loop_accesses(cheric, work):
    """The loads and stores of the loop's function between prologue and epilogue."""
    code, = bodies(cheric, LOOP % 10, work)
    return [word for word in code if ACCESS.match(word)]


# The section.


def section(cheric, count):
    with tempfile.TemporaryDirectory() as work:
        first, others = [generated(64)], light_enough(cheric, count)
        one, all_of_them = measured(cheric, first, work), measured(cheric, others, work)
        lines = [HEADING, "", "What `bench/size.py` printed.", ""]
        lines += table("The file of 64 functions", one, 1)
        lines += table(f"{count} generated programs of the whole language, times on average", all_of_them, count)
        lines += ["| What | Measured | Wanted |", "|---|---|---|"]
        lines.append(f"| text of the 64 functions to that of gcc -O0 | {one[0][1] / one[1][1]:.2f} | at most 1.1 |")
        lines.append(f"| text of the {count} programs to that of gcc -O0 | "
                     f"{all_of_them[0][1] / all_of_them[1][1]:.2f} | at most 1.9 |")
        lines.append(f"| time of `build` of the 64 functions to `gcc -O0 -c` | {one[0][2] / one[1][2]:.2f} | at most "
                     f"0.2 |")
        for name, texts in [("the 64 functions", first), (f"the {count} programs", others)]:
            functions, clear, slots, uses, registers = homes(cheric, texts, work)
            share = 100 * registers / (registers + uses)
            lines.append(f"| {name} and their `main`: functions without a slot; slots; uses in registers "
                         f"| {clear} of {functions}; {slots}; {share:.1f} % | |")
        turns = (steps_of(cheric, 2000, work) - steps_of(cheric, 1000, work)) / 1000
        lines.append(f"| instructions of a turn of `for(i=0;i<n;i=i+1)s=s+i;` | {turns:g} | |")
        accesses = loop_accesses(cheric, work)
        lines.append(f"| its loads and stores between prologue and epilogue | {'; '.join(accesses) or 'none'} | none |")
    return "\n".join(lines) + "\n"


def record(text):
    """Puts the section into its page, in the place of the older one."""
    with open(PAGE, encoding="utf-8") as file:
        page = file.read()
    start = page.index(HEADING + "\n") if HEADING + "\n" in page else page.index("\n## ") + 1
    end = page.index("\n## ", start) + 1 if page[start:].startswith(HEADING) else start
    put(PAGE, page[:start] + text + "\n" + page[end:])


def main():
    words = argparse.ArgumentParser(description=__doc__, formatter_class=argparse.RawDescriptionHelpFormatter)
    words.add_argument("count", nargs="?", type=int, default=50, metavar="COUNT")
    words.add_argument("--cheric", default=CHERIC, metavar="COMMAND", help="the command, the proved one by default")
    words.add_argument("--record", action="store_true", help="put the section into docs/measurements.md")
    words = words.parse_args()
    if words.cheric == CHERIC:
        prepared()
    text = section(words.cheric, words.count)
    print(text)
    if words.record:
        record(text)
    return 0


if __name__ == "__main__":
    sys.exit(main())
