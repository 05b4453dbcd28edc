#!/usr/bin/env python3
"""bench/real.py FOLDER [NAME ..] [--steps] [--jobs N]: how many programs go in without an edited line.

FOLDER has a folder for each program, with its text, original.c, and with `expected`, the bytes that it puts as gcc
builds it, or that it has put when it stops at an access that fails; where there is `input`, it gets that. Each is built
and run by `./cheric`, and as `gcc -O0 -funsigned-char` builds it. A program passes that goes in and puts the same bytes
as gcc's; that goes in, puts no other bytes, and stops at a memory error of a kind that this script knows; or that is
refused for a construct that the language leaves out, found at the place of the refusal. For each the table gives what
it ends with, the instructions to 1 % with --steps (by halves), the text to that of riscv64-linux-gnu-gcc -O0 of the
same preprocessed file, and the time of building. The last line counts what passed. It needs gcc and what ./cheric
needs, and for the texts gcc-riscv64-linux-gnu. It proves nothing and is no part of the gate."""
import collections
import os
import re
import shutil
import statistics
import subprocess
import tempfile
import time

from calls import answer_of, each, parser, prepared
from size import text_size

STEPS = 10_000_000_000
GCC = ["gcc", "-O0", "-w", "-funsigned-char"]
CROSS = ["riscv64-linux-gnu-gcc", "-O0", "-w", "-fwrapv", "-funsigned-char", "-march=rv64im", "-mabi=lp64", "-c", "-x",
         "c"]
# What the language has without a header, for gcc.
TYPES = "".join(f"typedef __{name.upper()}_TYPE__ {name}_t;" for name in
                ("size", "ptrdiff", "int8", "int16", "int32", "int64", "uint8", "uint16", "uint32", "uint64", "intptr",
                 "uintptr"))
TYPES += "typedef unsigned long ptraddr_t;int getchar(void),putchar(int);void *malloc(size_t),exit(int);\n"
# The ends of a line: a refusal or a stop, its code or cause, the file, if it is named, and the place.
ENDED = re.compile(r"(refused|trap|stack) ?(\S*) (?:(.+):)?(\d+):(\d+)$")
MARKER = re.compile(r'\s*#\s*(?:line\s+)?(\d+)(?:\s+"((?:[^"\\]|\\.)*)")?')

# What stands at the place of a refusal, by its code: behind the place (or, with <, before and behind it), and the
# construct that the language leaves out.
LEFT_OUT = [
    ("102", r"[\d.]+([eE][-+]?\d|\.)|\.\d|\d+[fF]\b", "floats"),
    ("103", r"goto\b", "goto"),
    ("103", r"(float|double|_Complex|long double)\b", "floats"),
    ("103", r"__attribute", "an attribute that changes a meaning"),
    ("103", r"(_Static_assert|_Alignas|_Alignof|_Generic|_Atomic|_Thread_local)\b", "a word of C11"),
    ("103", r"(__?asm(__)?|asm)\b", "assembly"),
    ("1[0-3][0-9]", r"\.\.\.", "variadic functions"),
    ("120", r"<\b(case\b[^:]*|default\s*)$", "a label of a switch in a nested statement"),
    ("120", r"(case|default)\b", "a label of a switch in a nested statement"),
    ("120", r"[.\[][^,;]*=", "designated initialisers"),
    ("120", r"<[{,]\s*\.$", "designated initialisers"),
    ("120", r"<\b(\w+)\s*\*+\s*\1$", "the name of a type declared anew"),
    ("120", r":\s*\d+\s*[;,]", "bit-fields"),
    ("120", r"(__)?typeof(__)?\b", "typeof"),
    ("130", r"(__)?typeof(__)?\b", "typeof"),
    ("130", r"va_(list|start|arg|end)\b|__builtin_va", "variadic functions"),
    ("132", r"\w*\s*\[\s*\]", "flexible array members"),
    ("133", r"return\b[^;]*\(", "a value returned from a function of void"),
    ("142", r"", "the limit of weight"),
]
# The text of the place and of the lines before it.
AROUND = [
    ("120", r"\w+\s*\(\s*\w+(\s*,\s*\w+)*\s*\)\s*$", "definitions of K&R"),
]
# What the driver ends with where there is nothing to compile.
NOT_PREPROCESSED = [
    (r"(termios|signal|socket|ioctl|select|pthread|dirent|mman|wait|setjmp|threads)\.h: (No such|there are no)",
     "headers of an operating system"),
    (r"(math|complex|fenv|tgmath|float)\.h: (No such|there are no)", "floats"),
    (r"stdarg\.h: ", "variadic functions"),
    (r"the attribute \w+ ", "an attribute that changes a meaning"),
    (r"#error", "an #error of the program's own"),
]
# Stops at a memory error, by cause and by what stands at the place.
STOPS = [
    ("bounds", r"(->|\.)\s*\w+", "a member reached by a pointer to another: sub-object bounds"),
    ("bounds", r"\[|\*|\w+\s*\[", "an element outside its array"),
    ("tag", r"", "a pointer that was made of an integer or of bytes"),
    ("store", r"", "a store without the permission"),
]


class Place:
    """A place of a preprocessed file: the lines of the file, the number of its line there, and the column."""

    def __init__(self, text, name, line, column):
        self.lines, self.column = text.split("\n"), column
        self.at = line if name is None else self.found(name, line)

    def found(self, name, line):
        """The line that the markers give that number of the file of that name; 0 where there is none."""
        file, number = None, 0
        for at, text in enumerate(self.lines, 1):
            marker = MARKER.match(text)
            if marker:
                file, number = marker[2] or file, int(marker[1]) - 1
                continue
            number += 1
            if number == line and file and (file == name or os.path.basename(file) == os.path.basename(name)):
                return at
        return 0

    def before(self):
        return "\n".join([*self.lines[max(0, self.at - 4):self.at - 1], self.lines[self.at - 1][:self.column - 1]])

    def behind(self):
        return "\n".join([self.lines[self.at - 1][self.column - 1:], *self.lines[self.at:self.at + 3]])

    def __str__(self):
        return " ".join((self.before()[-40:] + ">>>" + self.behind()[:40]).split())


def construct(code, place):
    """What the language leaves out at a place where a file is refused; none where the table has nothing of it."""
    for codes, pattern, name in LEFT_OUT:
        if re.fullmatch(codes, code):
            before = pattern.startswith("<")
            if re.search(pattern[1:], place.before()) if before else re.match(pattern, place.behind()):
                return name
    for codes, pattern, name in AROUND:
        if re.fullmatch(codes, code) and re.search(pattern, place.before()):
            return name
    return None


def kind_of_stop(cause, place):
    for of, pattern, name in STOPS:
        if of == cause and re.search(pattern, place.behind().split("\n")[0][:60]):
            return name
    return None


class Program:
    """What became of one program."""

    def __init__(self, name):
        self.name, self.line, self.passed, self.goes_in, self.what = name, "", False, False, ""
        self.steps, self.ratio, self.took = "", "", ""

    def row(self):
        return f"| {self.name} | {'yes' if self.goes_in else 'no'} | {self.line} | {self.what} | {self.steps} | " \
               f"{self.ratio} | {self.took} |"


def read(path):
    if not os.path.isfile(path):
        return b""
    with open(path, "rb") as file:
        return file.read()


def by_gcc(work, source, taken):
    """What gcc's program puts, or none where it does not build it or the program fails."""
    built = subprocess.run([*GCC, source, "-o", f"{work}/gcc", "-lm"], capture_output=True, check=False)
    if built.returncode:
        return None
    run = answer_of([f"{work}/gcc"], taken)
    return run.output if run.status is not None and run.status >= 0 else None


def text_ratio(work, kept):
    """The text of cheric's file to that of gcc's, of the same preprocessed file."""
    if not shutil.which(CROSS[0]):
        return ""
    text = TYPES.encode() + read(kept)
    built = subprocess.run([*CROSS, "-", "-o", f"{work}/cross.o"], input=text, capture_output=True, check=False)
    return f"{text_size(f'{work}/p.elf') / text_size(f'{work}/cross.o'):.2f}" if not built.returncode else "-"


def least_steps(cheric, work, taken):
    """The least limit, to 1 %, within which the run ends."""
    low, high = 0, 1_000_000
    ends = lambda limit: answer_of([cheric, "exec", f"{work}/p.elf", "--steps", str(limit)], taken).line != "steps"
    while not ends(high) and high < STEPS:
        low, high = high, 10 * high
    while high - low > high // 100:
        middle = (low + high) // 2
        low, high = (low, middle) if ends(middle) else (middle, high)
    return f"{high:,}"


def judged_run(program, run, expected, gcc, kept):
    """Whether a run that came about is right, and by what name it stopped if it did."""
    ended = ENDED.match(run.line)
    if run.line.startswith("exit "):
        program.passed = run.output == (expected if gcc is None else gcc)
        program.what = "the bytes of gcc's" if program.passed else "OTHER BYTES"
        if gcc is not None and gcc != expected:
            program.what += ", with another input than that of `expected`"
    elif ended and ended[1] == "trap" and expected.startswith(run.output):
        place = Place(kept, ended[3], int(ended[4]), int(ended[5]))
        kind = kind_of_stop(ended[2], place)
        program.passed, program.what = kind is not None, kind or f"NOT KNOWN: {place}"
    else:
        program.what = f"NOT KNOWN: {len(run.output)} of {len(expected)} bytes"


def judged_refusal(program, said, kept):
    ended = ENDED.match(program.line)
    if program.line == "preprocessor":
        found = next((name for pattern, name in NOT_PREPROCESSED if re.search(pattern, said)), None)
        program.passed, program.what = found is not None, found or "NOT KNOWN: " + " ".join(said.split())[:100]
    elif ended:
        place = Place(kept, ended[3], int(ended[4]), int(ended[5]))
        found = construct(ended[2], place)
        program.passed, program.what = found is not None, found or f"NOT KNOWN: {place}"


def tried(cheric, folder, name, steps):
    program = Program(name)
    source, taken = f"{folder}/{name}/original.c", read(f"{folder}/{name}/input")
    with tempfile.TemporaryDirectory() as work:
        kept = f"{work}/p.i"
        start = time.monotonic()
        built = subprocess.run([cheric, "build", source, "--keep-c", kept, "--out", f"{work}/p.elf"],
                               stdin=subprocess.DEVNULL, capture_output=True, check=False)
        program.took = f"{time.monotonic() - start:.2f} s"
        said = built.stderr.decode(errors="replace").strip()
        program.line = said.split("\n")[-1]
        text = read(kept).decode("latin-1")
        if built.returncode:
            judged_refusal(program, said, text)
            return program
        program.goes_in = True
        run = answer_of([cheric, "run", source, "--steps", str(STEPS)], taken)
        program.line = run.line
        judged_run(program, run, read(f"{folder}/{name}/expected"), by_gcc(work, source, taken), text)
        program.ratio = text_ratio(work, kept)
        if steps:
            program.steps = least_steps(cheric, work, taken)
    return program


def main():
    words = parser(__doc__)
    words.add_argument("folder", metavar="FOLDER")
    words.add_argument("names", nargs="*", metavar="NAME", help="these programs alone")
    words.add_argument("--steps", action="store_true", help="count the instructions of each run")
    words = words.parse_args()
    cheric = prepared(words.cheric)
    names = words.names or sorted(it for it in os.listdir(words.folder)
                                  if os.path.isfile(f"{words.folder}/{it}/original.c"))
    print("| Program | Goes in | Line | What | Instructions | Text to gcc -O0's | Built in |")
    print("|---|---|---|---|---|---|---|")
    programs = []
    for program in each(lambda name: tried(cheric, words.folder, name, words.steps), names, words.jobs):
        programs.append(program)
        print(program.row(), flush=True)
    inside = [it for it in programs if it.goes_in]
    print()
    for what, count in collections.Counter(it.what for it in programs if not it.goes_in).most_common():
        print(f"refused for {what}: {count}")
    ratios = [float(it.ratio) for it in inside if it.ratio not in ("", "-")]
    if ratios:
        print(f"text to that of gcc -O0: {statistics.median(ratios):.2f} in the middle, {max(ratios):.2f} at most")
    print(f"{len(inside)} of {len(programs)} go in without an edited line; of these "
          f"{sum(it.line.startswith('exit ') and it.passed for it in inside)} put the bytes of gcc's, and "
          f"{sum(it.line.startswith('trap ') and it.passed for it in inside)} stop at a memory error")
    passed = sum(it.passed for it in programs)
    print(f"{passed} passed, {len(programs) - passed} failed")
    return passed != len(programs)


if __name__ == "__main__":
    raise SystemExit(main())
