#!/usr/bin/env python3
"""bench/driver.py: what `./cheric` itself does with words, files and C programs that have directives, each against what
docs/command.md says. Its last line counts the rows. It needs what ./cheric needs, and a C preprocessor. It proves
nothing and is no part of the gate."""
import os
import re
import shutil
import subprocess
import sys
import tempfile
import time

from calls import ROOT, prepared, program_of

HELLO = '#include <stdio.h>\nint main(void)\n{\n    printf("Hello, %s %d\\n", "world", 42);\n    return 0;\n}\n'
PLAIN = "int main(void) { putchar('p'); return 0; }\n"
ECHO = "#include <stdio.h>\nint main(void) { int c; while ((c = getchar()) != EOF) putchar(c); return 0; }\n"
SCAN = '#include <stdio.h>\nint main(void) { int n; char s[4]; return scanf("%*d%3s %i", s, &n) - 2 ? 1 : n + s[0]; }\n'
WORDS = '#include <stdio.h>\n%s { printf("%%d %%d\\n", argc, argv[argc] == 0); }\n'

# What the words of a line are wrong in.
WRONG = [
    [], ["run"], ["jump", "a.c"], ["a.txt"], ["run", "a.c", "b.c"], ["a.c", "b.c"], ["run", "a.c", "--step", "5"],
    ["run", "a.c", "-x"], ["run", "a.c", "--steps"], ["run", "a.c", "--steps", "x"], ["run", "a.c", "--steps", ""],
    ["run", "a.c", "--steps", "10000000000000"], ["run", "a.c", "--steps=1", "--steps=2"],
    ["run", "a.c", "--heap", "1"], ["run", "a.c", "--stack", "65537"], ["run", "a.c", "--out"],
    ["run", "a.c", "--keep-c"], ["run", "a.c", "-D"],
    ["run", "none.c", "--turns", "x"], ["build", "-"], ["build", "-", "--heap", "16777216"],
]
# A file's text, the options, the output, the last line and the status of `run`.
RUNS = [
    (HELLO, [], "Hello, world 42\n", "exit 0", 0),
    (PLAIN, [], "p", "exit 0", 0),
    ("/* # include */\n" + PLAIN, [], "p", "exit 0", 0),
    ('# 7 "other.c"\n' + PLAIN, [], "p", "exit 0", 0),
    ("  #  define X 'x'\nint main(void) { putchar(X); return 3; }\n", [], "x", "exit 3", 1),
    (PLAIN.replace("'p'", "X"), ["-DX='d'"], "d", "exit 0", 0),
    (PLAIN.replace("'p'", "X"), ["-D", "X='d'"], "d", "exit 0", 0),
    ("#ifdef X\n#error\n#endif\n" + PLAIN, ["-DX", "-UX"], "p", "exit 0", 0),
    ('#include "own.h"\n' + PLAIN.replace("'p'", "OWN"), ["-I", "a folder"], "o", "exit 0", 0),
    (PLAIN.replace("'p'", "OWN"), ["-include", "a folder/own.h"], "o", "exit 0", 0),
    (WORDS % "int main(int argc, char **argv)", [], "1 1\n", "exit 0", 0),
    (WORDS % "int main(int argc,\n         const char *argv[])", [], "1 1\n", "exit 0", 0),
    (WORDS % "int\nmain (int argc, char *const *argv, char **env)", [], "1 1\n", "exit 0", 0),
    (WORDS % "int main(int argc, char **argv);\nint main(int argc, char **argv)", [], "1 1\n", "exit 0", 0),
    ("int main(int n, char **words) { putchar('0' + n); putchar(words[0][0]); return words[1] != 0; }", [], "1p",
     "exit 0", 0),
    ("#include <stdio.h>\nint main(int argc, char **argv) { puts(\"int main(int argc, char **argv) {\"); }\n", [],
     "int main(int argc, char **argv) {\n", "exit 0", 0),
    ("#include <stdio.h>\nint main(void) { puts(\"int main(int argc, char **argv) {\"); }\n", [],
     "int main(int argc, char **argv) {\n", "exit 0", 0),
    ("#define F(x) x\nstatic int f(void) { return 1; } int main(int argc, char *argv[]) { return f() + argc; }\n", [],
     "", "exit 2", 1),
    # The library takes nothing of the program's, and gives nothing that the program has.
    ("#include <stdio.h>\n#include <string.h>\n#define n 10\n#define c d\n#define size_t void\n"
     'int main(void) { printf("%d%x\\n", n, (int)strlen("abc")); return 0; }\n', [], "103\n", "exit 0", 0),
    ("#include <stdio.h>\n#include <string.h>\nsize_t strlen(const char *s) { (void)s; return 9; }\n"
     'int main(void) { printf("%d\\n", (int)strlen("abc")); return 0; }\n', [], "9\n", "exit 0", 0),
    ("unsigned long strlen(const char *);\n#define A \"abc\"\nint main(void) { return (int)strlen(A); }\n", [], "",
     "exit 3", 1),
    ("#include <stdio.h>\nint main(void) { int puts = 4; struct { int abs; } s = { 3 }; return puts + s.abs; }\n", [],
     "", "exit 7", 1),
    ("#include <stdio.h>\nconst char *f = \"%05d|%-3s|%x\\n\";\n"
     "int main(void) { printf(f, 42, \"a\", 255); return 0; }\n",
     [], "00042|a  |ff\n", "exit 0", 0),
    ("#include <stdio.h>\nstruct s { char c; int i; } __attribute__((unused)) x;\n"
     "__attribute__((noreturn, format(printf, 1, 2))) int f(char *s, ...) ;\n" + PLAIN, [], "", "refused 103", 10),
    # A file that asks which C it is told 1999, and does without the words that C11 added.
    ("#if __STDC_VERSION__ >= 201112L\nstruct s { _Alignas(64) char a[8]; };\n#else\nstruct s { char a[8]; };\n#endif\n"
     + PLAIN, [], "p", "exit 0", 0),
    # A thousand files are included.
    ('#include "own.h"\n' * 1000 + PLAIN.replace("'p'", "OWN"), ["-I", "a folder"], "o", "exit 0", 0),
    ("\n".join(f'#include "many/{n}.h"' for n in range(1000)) + "\nint main(void) { return v0 + v999 - 999; }\n", [], "",
     "exit 0", 0),
    # What cannot be preprocessed.
    ('#include "none.h"\n' + PLAIN, [], "", "preprocessor", 23),
    ("#error none\n" + PLAIN, [], "", "preprocessor", 23),
    ("#if 1\n" + PLAIN, [], "", "preprocessor", 23),
    ("#include <stddef.h>\nstruct s { char c; int i; } __attribute__((packed));\n" + PLAIN, [], "", "preprocessor", 23),
    ("#include <stddef.h>\nint i __attribute__((unused, __aligned__(64)));\n" + PLAIN, [], "", "preprocessor", 23),
]
NAMES = ["a b.c", "./-x.c", "it's.c", '"q".c', "$HOME.c", "*.c", "a folder/c.c"]


class Rows:
    """A folder, in which the rows run, and the rows that were answered otherwise."""

    def __init__(self, cheric, folder):
        self.cheric, self.folder, self.count, self.wrong = cheric, folder, 0, 0

    def write(self, name, text):
        with open(f"{self.folder}/{name}", "w", encoding="utf-8") as file:
            file.write(text)

    def read(self, name):
        with open(f"{self.folder}/{name}", encoding="utf-8") as file:
            return file.read()

    def call(self, words, taken="", more=None):
        run = subprocess.run([self.cheric, *words], cwd=self.folder, input=taken.encode(), capture_output=True,
                             env={**os.environ, **(more or {})}, check=False)
        said = run.stderr.decode(errors="replace")
        return run.stdout.decode(errors="replace"), said, (said.splitlines() or [""])[-1], run.returncode

    def holds(self, what, is_so):
        self.count += 1
        if not is_so:
            self.wrong += 1
            print(what)

    def row(self, words, output, line, status, taken="", says="", more=None):
        """The words are answered so; standard error has the text `says` somewhere."""
        out, said, last, code = self.call(words, taken, more)
        same = last == line or line == "refused 103" and re.match(r"refused 103 (.*:)?\d+:\d+$", last)
        self.holds(f"cheric {' '.join(words)}: {(out, said, code)}, and not {(output, line, status)}",
                   output in (None, out) and same and code == status and says in said)


def word_rows(rows):
    """None of these builds the command, for which this folder of the caches leaves no room."""
    more = {"XDG_CACHE_HOME": "/dev/null/none"}
    for words in WRONG:
        rows.row(words, "", "words", 11, more=more)
    for words in (["--help"], ["-h"], ["help"], ["run", "--help"]):
        out, _, last, status = rows.call(words, more=more)
        rows.holds(f"cheric {words}", out.startswith("usage: ") and last == "" and status == 0)
    for words in (["run", "none.c"], ["none.c"], ["run", "a folder"], ["exec", "none.elf"], ["mean", "none/a.c"]):
        rows.row(words, "", "file", 20, says="there is no file", more=more)


def run_rows(rows):
    for text, options, output, line, status in RUNS:
        rows.write("a.c", text)
        rows.row(["run", "a.c", *options], output, line, status)
    for name in NAMES:
        rows.write(name, HELLO)
        rows.row([name], "Hello, world 42\n", "exit 0", 0)
        rows.row(["build", name, "--out", "x.elf"], "", rows.call(["build", name])[2], 0)
        rows.row(["exec", "x.elf"], "Hello, world 42\n", "exit 0", 0)
        rows.holds(f"{name}.elf", os.path.isfile(f"{rows.folder}/{name}.elf"))


def stream_rows(rows):
    rows.write("echo.c", ECHO)
    rows.row(["echo.c"], "abc", "exit 0", 0, "abc")
    rows.row(["mean", "echo.c"], "abc", "exit 0", 0, "abc")
    rows.row(["run", "-"], "Hello, world 42\n", "exit 0", 0, HELLO)
    rows.row(["-"], "", "exit 0", 0, ECHO)
    rows.row(["-"], "p", "exit 0", 0, PLAIN)
    rows.row(["/dev/stdin", "--steps", "9"], "", "words", 11, PLAIN)
    rows.row(["run", "/dev/stdin"], "p", "exit 0", 0, PLAIN)
    rows.row(["build", "-", "--out", "s.elf"], "", rows.call(["build", "-", "--out=s.elf"], HELLO)[2], 0, HELLO)
    rows.row(["exec", "s.elf"], "Hello, world 42\n", "exit 0", 0)
    rows.write("scan.c", SCAN)
    rows.row(["scan.c"], "", "exit 104", 1, "12 ab 7")
    rows.row(["mean", "-"], "1 1\n", "exit 0", 0, WORDS % "int main(int argc, char **argv)")


def kept_rows(rows):
    rows.write("a.c", HELLO)
    rows.row(["run", "a.c", "--keep-c", "a.i"], "Hello, world 42\n", "exit 0", 0)
    kept = rows.read("a.i")
    rows.holds("the kept file has markers of the program and the library",
               re.search(r'^# \d+ "a\.c"', kept, re.M) and re.search(r'^# \d+ "lib/print\.c"', kept, re.M))
    rows.holds("the kept file has what is needed alone", "strlen" not in re.sub(r"#.*|.*;$", "", kept, flags=re.M))
    rows.row(["a.i"], "Hello, world 42\n", "exit 0", 0)
    rows.row(["run", "a.i", "--keep-c=b.i"], "Hello, world 42\n", "exit 0", 0)
    rows.holds("a preprocessed file is taken as it is", rows.read("b.i") == kept)
    rows.row(["run", "a.c", "--keep-c", "none/a.i"], "", "file", 20)
    rows.write("place.c", "int main(void) {\n  int x = 1;\n  return y; }\n")
    rows.row(["place.c"], "", "refused 130 3:10", 10)


def preprocessor_rows(rows):
    """Where no preprocessor is there, or it fails."""
    rows.write("a.c", HELLO)
    rows.row(["a.c"], "", "preprocessor", 23, more={"CC": "false"})
    rows.row(["a.c"], "Hello, world 42\n", "exit 0", 0, more={"CC": "cpp"})
    os.mkdir(f"{rows.folder}/bin")
    for tool in "sh awk sed cat dirname mktemp mkdir rm find cksum sort tr readlink".split():
        if shutil.which(tool):
            os.symlink(shutil.which(tool), f"{rows.folder}/bin/{tool}")
    more = {"PATH": f"{rows.folder}/bin", "CC": ""}
    rows.row(["a.c"], "", "preprocessor", 23, says="no C preprocessor", more=more)
    rows.write("a.c", PLAIN)
    rows.row(["a.c"], "p", "exit 0", 0, more=more)
    if "/crates/" not in program_of(rows.cheric):
        out, said, _, status = rows.call(["a.c"], more={**more, "XDG_CACHE_HOME": f"{rows.folder}/caches"})
        rows.holds(f"no kit: {said}", "rt, of the Rattle kit, is not on" in said and (out, status) == ("", 126))


def macro_rows(rows):
    """Each macro of the table in docs/command.md has the value that stands there."""
    with open(f"{ROOT}/docs/command.md", encoding="utf-8") as file:
        macros = re.findall(r"^\| `(__?\w+)` \| `(\w+)` \|", file.read(), re.M)
    tests = "".join(f"#if !defined {name} || {name} != {value}\n#error {name}\n#endif\n" for name, value in macros)
    rows.write("a.c", tests + PLAIN)
    rows.row(["a.c"], "p", "exit 0", 0)
    rows.holds("the table of macros", len(macros) > 10)


def example_rows(rows):
    """The examples that have directives, each with what its first lines say; README.md has the first whole."""
    name = f"{ROOT}/examples/hello.c"
    rows.row([name], "Hello, world: 5 letters, and a pointer of 16 bytes\n", "exit 0", 0)
    with open(name, encoding="utf-8") as file, open(f"{ROOT}/README.md", encoding="utf-8") as page:
        shown = "".join(f"    {line}" if line.strip() else line for line in file)
        rows.holds("README.md shows examples/hello.c", f"    $ cat examples/hello.c\n{shown}" in page.read())


def marker_rows(rows):
    """Markers that say nothing, or much: each file stops at the second line of the marker's."""
    wrong = "\nint main(void) {\n  return y; }\n"
    long = "n" * 100_000
    for marker, place in (('# 7 "a.h"', "a.h:8:10"), ("# 7", "8:10"), (f'# 7 "{long}"', f"{long}:8:10"),
                          (f"# {2 ** 32} \"a.h\"", "3:10"), (f'# {"9" * 100_000} "a.h"', "3:10"), ('# 7 "a.h', "8:10"),
                          (f"#line {2 ** 32 - 1}", f"{2 ** 32}:10"), ("# 0", "1:10"), ("#pragma x", "3:10")):
        rows.write("m.i", marker + wrong)
        # As it is, without the preprocessor: the command itself reads it.
        words = [program_of(rows.cheric), "run", "m.i"]
        run = subprocess.run(words, cwd=rows.folder, capture_output=True, check=False)
        rows.holds(f"{marker[:40]}: {run.stderr[:80]}", run.stderr.decode() == f"refused 130 {place}\n")


def time_row(rows):
    """A call answers in 2 seconds, once the command is built."""
    rows.write("a.c", HELLO)
    start = time.monotonic()
    rows.row(["a.c"], "Hello, world 42\n", "exit 0", 0)
    rows.holds("a call takes longer than 2 seconds", time.monotonic() - start < 2)


def main():
    cheric = prepared()
    with tempfile.TemporaryDirectory() as folder:
        os.mkdir(f"{folder}/a folder")
        rows = Rows(cheric, folder)
        rows.write("a folder/own.h", "#define OWN 'o'\n")
        os.mkdir(f"{folder}/many")
        for n in range(1000):
            rows.write(f"many/{n}.h", f"static int v{n} = {n};\n")
        rows.write("a.c", PLAIN)
        for work in (word_rows, run_rows, stream_rows, kept_rows, preprocessor_rows, macro_rows, marker_rows, example_rows,
                     time_row):
            work(rows)
    print(f"{rows.count - rows.wrong} passed, {rows.wrong} failed")
    return rows.wrong != 0


if __name__ == "__main__":
    sys.exit(main())
