#!/usr/bin/env python3
"""bench/families.py [--only WORD] [--small] [--gcc] [--cheric COMMAND]: files that are large in one thing, beside gcc.

Each family is a C file of a number of parts, of at most 4,194,304 bytes. It is taken with that number and with half of
it, by `cheric build` and by `gcc -fsyntax-only`, which gets at most 60 seconds and 4 GB. A file over the limit of
weight ends with `refused 142 1:1` after the front end; what is built goes through all of the compiler, which the check
of gcc does not. Both files and both commands take turns, five of them or fewer. A time is that of the processor, the
least of its runs, and the memory is the peak of resident bytes; what is compared are runs of the same turn, and of all
turns the middle one is told.

The line of a family says what is over the aim: `growth` where cheric takes more than 2.5 times as long for twice the
number, `gcc` where it takes more than twice as long as gcc for the larger file, `answer` where the file is neither
built nor refused by 142. With --small each number is a tenth, for a quick try, and with --gcc there is gcc alone. It
needs what ./cheric needs, and gcc. It proves nothing and is no part of the gate."""
import argparse
import multiprocessing
import os
import resource
import statistics
import subprocess
import sys
import tempfile

from calls import ROOT, timed

MOST_BYTES = 4_194_304
GROWTH, BESIDE_GCC = 2.5, 2.0
GCC_LIMITS, CHERIC_LIMITS = (60, 4 << 30), (120, 8 << 30)
MAIN = "int main(void){return 0;}"
PAIR = "struct P{int a;long b;};"


def each(n, part, between=""):
    """A part for each k below n, one behind the other, with k in place of `#` and k + 1 in place of `@`."""
    return between.join(part.replace("#", str(k)).replace("@", str(k + 1)) for k in range(n))


def main_of(text):
    return "int main(void){" + text + "return 0;}"


def members(n):
    """A struct `S` of n members."""
    return "struct S{" + each(n, "int a#;") + "};"


def deep(n, before, inner, behind):
    """n parts, a hundred of them in one another each time."""
    return (before * 100 + inner + behind * 100) * (n // 100)


def values(n, value="1"):
    return "{" + f"{value}," * n + "}"


# The name of each family, the number of its parts and its text.
FAMILIES = (
    ("members of one struct", 300_000, lambda n: members(n) + "struct S s;" + MAIN),
    ("members read", 150_000, lambda n: members(n) + "struct S s;" + main_of(each(n, "s.a#;"))),
    ("members read through a pointer", 150_000,
     lambda n: members(n) + "struct S s,*p;" + main_of("p=&s;" + each(n, "p->a#;"))),
    ("members of a local addressed", 150_000, lambda n: members(n) + main_of("struct S s;" + each(n, "&s.a#;"))),
    ("sizes of members as values", 130_000,
     lambda n: members(n) + "struct S s;long a[]={" + each(n, "sizeof s.a#,") + "};" + MAIN),
    ("addresses of members as values", 150_000,
     lambda n: members(n) + "struct S s;int*a[]={" + each(n, "&s.a#,") + "};" + MAIN),
    ("values of the members of one struct", 250_000,
     lambda n: members(n) + "struct S s=" + values(n) + ";" + MAIN),
    ("structs of one member", 150_000, lambda n: each(n, "struct T#{int a;};") + MAIN),
    ("structs in one another", 100_000,
     lambda n: "struct S0{int a;};" + each(n, "struct S@{struct S# a;};") + f"struct S{n} s;" + MAIN),
    ("unions in one another", 120_000,
     lambda n: "union U0{int a;};" + each(n, "union U@{union U# a,b;};") + f"union U{n} u;" + MAIN),
    ("tags never completed", 180_000, lambda n: each(n, "struct T#*p#;") + MAIN),
    ("globals without a value", 340_000, lambda n: each(n, "int a#;") + MAIN),
    ("globals with a value", 270_000, lambda n: each(n, "int a#=7;") + MAIN),
    ("globals read", 180_000, lambda n: each(n, "int a#;") + main_of(each(n, "a#;"))),
    ("globals declared three times", 90_000,
     lambda n: each(n, "int a#;") + each(n, "extern int a#;") + each(n, "int a#;") + MAIN),
    ("pointers to globals", 130_000, lambda n: each(n, "int a#;int*p#=&a#;") + MAIN),
    ("addresses of elements as values", 350_000,
     lambda n: f"char a[{n}];char*p[]={{" + each(n, "&a[#],") + "};" + MAIN),
    ("strings as values", 450_000, lambda n: "char*s[]={" + each(n, "\"#\",") + "};" + MAIN),
    ("bytes of one string", 4_000_000, lambda n: "char s[]=\"" + "a" * n + "\";" + MAIN),
    ("pieces of one string", 1_300_000, lambda n: "char s[]=" + "\"a\"" * n + ";" + MAIN),
    ("enumerators", 480_000, lambda n: "enum E{" + each(n, "A#,") + "};" + MAIN),
    ("enumerators by the one before", 210_000,
     lambda n: "enum E{A0" + each(n, ",A@=A#+1") + "};" + MAIN),
    ("a chain of typedef names", 140_000,
     lambda n: "typedef int T0;" + each(n, "typedef T#*T@;") + f"T{n} p;" + MAIN),
    ("typedef names used", 120_000, lambda n: each(n, "typedef int T#;T# a#;") + MAIN),
    ("a chain of function types", 120_000,
     lambda n: "typedef int F0(void);" + each(n, "typedef int F@(F#*);") + f"F{n}*p;" + MAIN),
    ("function types of the same form", 100_000,
     lambda n: "int f(int(*)(int),long);" + each(n, "int(*p#)(int(*)(int),long);") + MAIN),
    ("functions", 130_000, lambda n: each(n, "int f#(void){return 1;}") + MAIN),
    ("functions called", 110_000,
     lambda n: each(n, "void f#(void){}") + main_of(each(n, "f#();"))),
    ("calls of one function", 480_000, lambda n: "int f(int a,int b){return a+b;}" + main_of("f(1,2);" * n)),
    ("prototypes", 190_000, lambda n: each(n, "int f#(int,long);") + MAIN),
    ("prototypes of one function", 380_000, lambda n: "int f(int);" * n + MAIN),
    ("parameters in one call", 3_800,
     lambda n: "int f(" + each(n, "int a#", ",") + f"){{return a{n - 1};}}"
     + "int main(void){return f(" + each(n, "0", ",") + ");}"),
    ("parameters and arguments", 240_000,
     lambda n: "int f(" + each(n, "int a#", ",") + "){return 0;}" + main_of("f(" + each(n, "0", ",") + ");")),
    ("struct parameters", 220_000, lambda n: PAIR + "int f(" + each(n, "struct P a#", ",") + "){return 0;}" + MAIN),
    ("struct arguments", 600_000,
     lambda n: PAIR + "int f(struct P a){return a.a;}" + main_of("struct P s;" + "f(s);" * n)),
    ("struct arguments of one call", 180_000,
     lambda n: PAIR + "int f(" + each(n, "struct P a#", ",") + "){return 0;}"
     + main_of("struct P s;f(" + each(n, "s", ",") + ");")),
    ("struct results", 500_000,
     lambda n: PAIR + "struct P f(void){struct P s={1,2};return s;}" + main_of("struct P s;" + "s=f();" * n)),
    ("structs copied", 900_000, lambda n: PAIR + main_of("struct P s,t;" + "s=t;" * n)),
    ("locals", 340_000, lambda n: main_of(each(n, "int a#;"))),
    ("locals addressed", 200_000, lambda n: main_of(each(n, "int a#;&a#;"))),
    ("static locals", 180_000, lambda n: main_of(each(n, "static int a#=7;"))),
    ("blocks with a local", 250_000, lambda n: main_of("{int a;a=1;}" * n)),
    ("blocks in one another", 400_000, lambda n: main_of(deep(n, "{int a;", "a=1;", "}"))),
    ("labels of one switch", 350_000, lambda n: main_of("int a;a=0;switch(a){" + each(n, "case #:") + ";}")),
    ("switches", 120_000, lambda n: main_of("int a;a=0;" + "switch(a){case 1:a=2;default:;}" * n)),
    ("loops and conditions", 130_000, lambda n: main_of("int a;a=0;" + "while(a<1){if(a)a=2;else a=3;}" * n)),
    ("values of one array", 2_000_000, lambda n: "int a[]=" + values(n) + ";" + MAIN),
    ("nested values of one array", 250_000,
     lambda n: "struct{int a;struct{int b[2];}c;}a[]=" + values(n, "{1,{{2,3}}}") + ";" + MAIN),
    ("values of one local array", 1_500_000, lambda n: main_of("int a[]=" + values(n) + ";")),
    ("local arrays with nested values", 130_000,
     lambda n: main_of(each(n, "int a#[2][2]={{1,2},{3}};"))),
    ("terms of sums of a hundred", 1_500_000,
     lambda n: main_of("int a;a=0;" + ("a=1" + "+a" * 100 + ";") * (n // 100))),
    ("operands of commas", 1_500_000, lambda n: main_of("int a;a=0;" + ("a" + ",a" * 100 + ";") * (n // 100))),
    ("constant terms of sums", 1_500_000, lambda n: "int a[]={" + ("1" + "+1" * 100 + ",") * (n // 100) + "};" + MAIN),
    ("declarators of one declaration", 300_000, lambda n: "int z" + each(n, ",*a#[2]") + ";" + MAIN),
    ("declarators of a hundred stars", 3_000_000,
     lambda n: each(n // 100, "int" + "*" * 100 + "a#;") + MAIN),
    ("directives", 590_000, lambda n: "# 1 \"\"\n" * n + MAIN),
    ("comments", 1_000_000, lambda n: "/**/" * n + MAIN),
    ("names of a thousand bytes", 4_000, lambda n: each(n, "int " + "a" * 1000 + "#;") + MAIN),
)


class Run:
    """A run of a command within limits of seconds and bytes: its processor seconds, peak of MB and last line."""

    def __init__(self, words, limits):
        def limited():
            resource.setrlimit(resource.RLIMIT_CPU, (limits[0], limits[0]))
            resource.setrlimit(resource.RLIMIT_AS, (limits[1], limits[1]))

        with tempfile.TemporaryFile() as err:
            streams = {"stdin": subprocess.DEVNULL, "stdout": subprocess.DEVNULL, "stderr": err}
            child = subprocess.Popen(words, **streams, preexec_fn=limited)
            _, status, usage = os.wait4(child.pid, 0)
            child.returncode = self.status = os.waitstatus_to_exitcode(status)
            err.seek(0)
            lines = err.read()[-4000:].decode(errors="replace").splitlines()
        self.seconds, self.memory = usage.ru_utime + usage.ru_stime, usage.ru_maxrss / 1024
        self.line = lines[-1] if lines else ""
        self.late = self.seconds >= limits[0] - 1

    def __str__(self):
        return f"{self.seconds:.2f} s, {self.memory:.0f} MB"


def turns_of(commands):
    """The runs of commands that take turns, so that a slow minute of the machine meets them all: up to five turns, and
    fewer where they take long."""
    turns = [[Run(words, limits) for words, limits in commands]]
    while len(turns) < 5 and sum(run.seconds for turn in turns for run in turn) < 16:
        turns.append([Run(words, limits) for words, limits in commands])
    return turns


def least(runs):
    return min(runs, key=lambda run: run.seconds)


def middle(runs, others):
    """How many times as long as the others of its turn a run takes, in the middle turn."""
    return statistics.median(run.seconds / max(other.seconds, 0.001) for run, other in zip(runs, others))


def write(name, text_of, n):
    with open(name, "w", encoding="utf-8") as file:
        file.write(text_of(n))


def written(name, text_of, n):
    """Writes the text, and returns its bytes. A process of its own does, as the memory of this one is the floor of what
    is measured."""
    process = multiprocessing.Process(target=write, args=(name, text_of, n))
    process.start()
    process.join()
    size = os.path.getsize(name)
    if process.exitcode or size > MOST_BYTES:
        raise SystemExit(f"a file of {n} parts with {size} bytes")
    return size


class Family:
    """The runs of a family, of half its number and of the whole."""

    def __init__(self, family, words, work):
        self.name, count, text_of = family
        count = count // 10 if words.small else count
        self.count = count - count % 200 if count >= 2000 else count
        files = [f"{work}/half.c", f"{work}/file.c"]
        for file, n in zip(files, (self.count // 2, self.count)):
            self.size = written(file, text_of, n)
        builds = [([words.cheric, "build", file, "--out", f"{work}/file.elf"], CHERIC_LIMITS) for file in files]
        checks = [(["gcc", "-fsyntax-only", "-w", file], GCC_LIMITS) for file in files]
        first = Run(*checks[0])
        builds, checks = [] if words.gcc else builds, [] if first.late else checks
        runs = list(zip(*turns_of(builds + checks)))
        self.cheric, self.gcc = runs[:len(builds)], runs[len(builds):] or [[first]]

    def of_gcc(self):
        """The time and memory of gcc for the half and the whole, or why there are none."""
        runs = [least(runs) for runs in self.gcc]
        return " | ".join(
            (f"over {GCC_LIMITS[0]} s" if run.late else str(run) if run.status == 0 else f"fails: {run.line[-60:]}")
            for run in runs + runs[-1:] * (2 - len(runs)))

    def row(self):
        """The line of the table, and whether all is within the aims."""
        name = f"{self.name} ({self.count:,}; {self.size:,} bytes)"
        checked = least(self.gcc[-1])
        if not self.cheric:
            return f"| {name} | {self.of_gcc()} |", checked.status == 0 or checked.late
        half, whole = self.cheric
        line = whole[0].line
        answer = line.split()[0] if line.startswith("built ") else line
        growth = middle(whole, half)
        known = checked.status == 0 or checked.late
        beside = middle(whole, self.gcc[-1]) if checked.status == 0 else least(whole).seconds / checked.seconds
        marks = ["growth"] * (growth > GROWTH) + ["gcc"] * (known and beside > BESIDE_GCC)
        marks += ["answer"] * (answer not in ("built", "refused 142 1:1"))
        ratio = f"{beside:.2f}" if checked.status == 0 else f"under {beside:.2f}" if known else ""
        cells = [name, answer, least(half), least(whole), f"{growth:.2f}", self.of_gcc(), ratio, " ".join(marks)]
        return f"| {' | '.join(map(str, cells))} |", not marks


def main():
    words = argparse.ArgumentParser(description=__doc__, formatter_class=argparse.RawDescriptionHelpFormatter)
    words.add_argument("--only", default="", metavar="WORD", help="only families whose name has this word")
    words.add_argument("--small", action="store_true", help="a tenth of each number")
    words.add_argument("--gcc", action="store_true", help="gcc alone")
    words.add_argument("--cheric", metavar="COMMAND", default=f"{ROOT}/cheric", help="the command, ./cheric by default")
    words = words.parse_args()
    if words.gcc:
        print("| Family | gcc, half | gcc |\n|---|---|---|")
    else:
        words.cheric = timed(words.cheric)
        print("| Family | Answer | cheric, half | cheric | growth | gcc, half | gcc | cheric to gcc | over |")
        print("|---|---|---|---|---|---|---|---|---|")
    families = [family for family in FAMILIES if words.only in family[0]]
    over = 0
    for family in families:
        with tempfile.TemporaryDirectory() as work:
            line, within = Family(family, words, work).row()
        print(line, flush=True)
        over += not within
    print(f"\n{len(families)} families, {over} over an aim")
    return 1 if over else 0


if __name__ == "__main__":
    sys.exit(main())
