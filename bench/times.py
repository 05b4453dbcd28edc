#!/usr/bin/env python3
"""bench/times.py [PART..]: times, sizes and memory of cheric, each beside its peers in the same run. The parts are, all
by default:

- building: `cheric build` on the largest accepted ones of 200 generated programs, beside `gcc -O0` and `tcc`, and the
  bytes of their texts beside `riscv64-linux-gnu-gcc -O0`;
- running: a loop over integers by `cheric run` and by `qemu-riscv64`, and the instructions of a second;
- front: the front end on 100 KB of functions, structs and initialisers, beside `gcc -fsyntax-only` and `tcc`;
- long: files of 4,194,304 bytes, tokens and declarations, beside `gcc -fsyntax-only` and `tcc`;
- hostile: files that are large in one thing, as chains of typedef names, unions in one another and an initialiser of a
  million values.

A file over the limit of weight ends with `refused 142 1:1` after the front end. A peer that is not there is left out.
The memory is the peak of resident bytes of the one process. It needs what ./cheric needs. It proves nothing and is no
part of the gate."""
import os
import shutil
import statistics
import struct
import subprocess
import sys
import tempfile
import time

from calls import ROOT, prepared
from programs import program

CHERIC = f"{ROOT}/crates/cheric_cli/out/cheric_cli"
MOST_BYTES = 4_194_304
MAIN = "int main(void){return 0;}"


class Run:
    """One run of a command: seconds, the peak of resident bytes in MB, the status, the last line of standard error."""

    def __init__(self, words):
        with tempfile.TemporaryFile() as err:
            start = time.monotonic()
            child = subprocess.Popen(words, stdin=subprocess.DEVNULL, stdout=subprocess.DEVNULL, stderr=err)
            _, status, usage = os.wait4(child.pid, 0)
            self.seconds = time.monotonic() - start
            child.returncode = self.status = os.waitstatus_to_exitcode(status)
            self.memory = usage.ru_maxrss / 1024
            err.seek(0)
            lines = err.read().decode(errors="replace").splitlines()
        self.line = lines[-1] if lines else ""


class Several:
    """The median of several runs of a command, whose last line is the same each time."""

    def __init__(self, words, count):
        runs = [Run(words) for _ in range(count)]
        self.seconds = statistics.median(run.seconds for run in runs)
        self.memory = max(run.memory for run in runs)
        self.line = runs[-1].line


def there(*tools):
    return [words for words in tools if shutil.which(words[0])]


def write(name, text):
    with open(name, "w") as file:
        file.write(text)


def text_size(name):
    """The size of the section `.text` of an ELF64 file."""
    with open(name, "rb") as file:
        data = file.read()
    at, = struct.unpack_from("<Q", data, 40)
    size, count, names = struct.unpack_from("<HHH", data, 58)
    headers = [struct.unpack_from("<IIQQQQ", data, at + k * size) for k in range(count)]
    base = headers[names][4]
    for name_at, _, _, _, _, length in headers:
        if data[base + name_at:].startswith(b".text\0"):
            return length
    return 0


def show(rows):
    """A line for each command, and how its time compares with that of the first one."""
    first = rows[0][1].seconds
    for name, run in rows:
        print(f"    {name}: {1000 * run.seconds:.2f} ms ({run.seconds / first:.2f} times the first), "
              f"{run.memory:.1f} MB")


def building(work):
    source, target = f"{work}/p.c", f"{work}/p.out"
    largest = sorted((program(seed) for seed in range(1, 201)), key=len)[-20:]
    tools = [[CHERIC, "build", source, "--out", target]]
    tools += [words + ["-w", "-c", source, "-o", target]
              for words in there(["gcc", "-O0"], ["tcc", "-O0"], ["riscv64-linux-gnu-gcc", "-O0"])]
    took, size = [0.0] * len(tools), [0] * len(tools)
    for text in largest:
        write(source, "int putchar(int);" + text)
        for k, words in enumerate(tools):
            took[k] += Several(words, 5).seconds
            size[k] += text_size(target)
    print(f"building the {len(largest)} longest of 200 programs, on average:")
    for k, words in enumerate(tools):
        print(f"    {os.path.basename(words[0])}: {1000 * took[k] / len(largest):.2f} ms ({took[k] / took[0]:.2f} "
              f"times the first), "
              f"{size[k] // len(largest)} bytes of text ({size[k] / size[0]:.2f} times the first)")


def running(work):
    source, target = f"{work}/loop.c", f"{work}/loop"
    write(source, "int main(void){long n=5000000;long s=0;while(n){s=s+(n&7);n=n-1;}return s&255;}")
    rows = [("cheric run", Several([CHERIC, "run", source, "--steps", "1000000000000"], 3))]
    if shutil.which("riscv64-linux-gnu-gcc") and shutil.which("qemu-riscv64"):
        subprocess.run(["riscv64-linux-gnu-gcc", "-O0", "-static", "-o", target, source], check=True)
        rows.append(("qemu-riscv64", Several(["qemu-riscv64", target], 3)))
    print("five million turns of a loop:")
    show(rows)
    write(source, "int main(void){long n=1;while(1){n=n*3+1;}}")
    few = Several([CHERIC, "run", source, "--steps", "0"], 5).seconds
    many = Several([CHERIC, "run", source, "--steps", "100000000"], 3).seconds
    print(f"    cheric run: {100 / max(many - few, 1e-6):.1f} million instructions in a second")


def part_of_file(k):
    """A struct, two objects with initialisers, and a function over them."""
    return f"""struct Node{k} {{ int count; long weight; char name[8]; struct Node{k} *next; }};
static struct Node{k} node{k} = {{ {k}, {k * 7}, "node", 0 }};
static int table{k}[8] = {{ 1, 2, 3, {k}, 5, 6, 7, 8 }};
static int walk{k}(struct Node{k} *list, int limit) {{
  int sum = 0;
  for (int i = 0; i < limit; i++) sum += table{k}[i & 7] * i - (sum >> 3);
  while (list && sum < 1000) {{
    if (list->count > limit) sum -= (int)list->weight;
    else sum += list->name[0];
    list = list->next;
  }}
  switch (sum & 3) {{ case 0: return 1; case 1: sum++; break; default: sum = -sum; }}
  return sum + node{k}.count;
}}
"""


def file_of(size):
    """A C file of functions, structs and initialisers of at least so many bytes."""
    text, calls, k = "", "", 0
    while len(text) < size:
        text += part_of_file(k)
        if k < 50:
            calls += f"  sum += walk{k}(&node{k}, {k});\n"
        k += 1
    return text + "int main(void) {\n  int sum = 0;\n" + calls + "  return sum & 255;\n}\n"


def compared(name, source, size, count):
    """The front end on a file beside those of the peers."""
    cheric = Several([CHERIC, "run", source], count)
    rows = [("cheric run", cheric)]
    for words in there(["gcc", "-fsyntax-only", "-w"], ["tcc", "-w", "-c", "-o", "/dev/null"]):
        run = Several(words + [source], count)
        rows.append((" ".join(words[:2]) if words[0] == "gcc" else "tcc -c", run))
    print(f"{name}, {size} bytes: {cheric.line}")
    show(rows)


def front(work):
    source, text = f"{work}/front.c", file_of(100_000)
    write(source, text)
    compared("functions, structs and initialisers", source, len(text), 21)


def declarations(size, last):
    """Declarations of objects, filled up to so many bytes with blanks, with `main` and then `last` at the end."""
    room, parts, k = size - len(MAIN) - len(last), [], 0
    while room >= 24:
        part = f"int a{k}=1;" if k % 2 else f"long a{k}[2];"
        room -= len(part)
        parts.append(part)
        k += 1
    return "".join(parts) + " " * room + MAIN + last


def long(work):
    source = f"{work}/long.c"
    before, behind = "int main(void){int a=0;", "return a;}"
    turns = (MOST_BYTES - len(before) - len(behind)) // 6
    sums = (MOST_BYTES - len(MAIN)) // 2
    for name, text in [
        ("empty externals", ";" * (MOST_BYTES - len(MAIN)) + MAIN),
        ("statements", before + "a=a+1;" * turns + behind),
        ("a sum", "int main(void){return 0" + "+1" * sums + ";}"),
        ("brackets", "(" * MOST_BYTES),
        ("a comment", "/*" + " " * (MOST_BYTES - 4 - len(MAIN)) + "*/" + MAIN),
        ("declarations", declarations(MOST_BYTES, "")),
        ("declarations, and at the last byte what is none", declarations(MOST_BYTES, "}")),
        ("functions, structs and initialisers", file_of(MOST_BYTES - 20_000)),
    ]:
        write(source, text)
        compared(name, source, len(text), 1)
    write(source, " " * (MOST_BYTES + 1))
    print(f"one byte more than a file may have: {Run([CHERIC, 'run', source]).line}")


def hostile(work):
    source = f"{work}/hostile.c"
    many = 50_000
    chain = "typedef int T0;" + "".join(f"typedef T{k}*T{k + 1};" for k in range(many)) + f"T{many} p;"
    unions = "union U0{int a;};" + "".join(f"union U{k + 1}{{union U{k} a,b;}};" for k
                                           in range(many)) + f"union U{many} u;"
    structs = "struct S0{int a;};" + "".join(f"struct S{k + 1}{{struct S{k} a;}};" for k
                                             in range(many)) + f"struct S{many} s;"
    objects = "".join(f"char c{k}[67000000];" for k in range(many))
    values = "".join(f"int a{k}={k};" for k in range(many))
    functions = "".join(f"int f{k}(void){{return {k};}}" for k in range(many))
    members = "struct S{" + "".join(f"int a{k};" for k in range(many)) + "} s;"
    labels = "int main(void){switch(getchar()){" + "".join(f"case {k}:" for k in range(many)) + ";}return 0;}"
    addresses = "int main(void){" + "".join(f"int a{k};&a{k};" for k in range(many)) + "return 0;}"
    for name, text, count in [
        ("a chain of typedef names", chain, many),
        ("unions in one another", unions, many),
        ("structs in one another", structs, many),
        ("large objects without a value", objects, many),
        ("objects with a value", values, many),
        ("functions", functions, many),
        ("members of one struct", members, many),
        ("labels of one switch", labels, many),
        ("locals whose addresses are taken", addresses, many),
        ("an initialiser of so many values", "int a[]={" + "1," * 1_000_000 + "};", 1_000_000),
        ("an object whose first byte has a value", "char c[67000000]={1};", 1),
        ("a local of so many values", "int main(void){int a[200000]={" + "1," * 200_000 + "};return 0;}", 200_000),
    ]:
        write(source, text + (MAIN if "main" not in text else ""))
        compared(f"{name} ({count})", source, os.path.getsize(source), 1)


def main():
    parts = {"building": building, "running": running, "front": front, "long": long, "hostile": hostile}
    prepared()
    with tempfile.TemporaryDirectory() as work:
        for name in sys.argv[1:] or parts:
            parts[name](work)
    return 0


if __name__ == "__main__":
    sys.exit(main())
