#!/usr/bin/env python3
"""bench/rows.py: runs small files by `./cheric`, over real files and streams, and compares output, line and status with
what the rules of docs/ give. Its last line counts the rows. It needs what ./cheric needs. It proves nothing and is no
part of the gate."""
import json
import os
import resource
import signal
import subprocess
import sys
import tempfile
import tty

from calls import ROOT, prepared

CHERIC = f"{ROOT}/cheric"
HI = "int main(void){putchar(72);putchar(105);return 0;}"
ECHO = "int main(void){int c;while((c=getchar())!=-1)putchar(c);return 0;}"
END = "int main(void){return 0;}"

# A C file, its input, its output, the line and the status.
RUN = [
    (HI, "", "Hi", "exit 0", 0),
    ("", "", "", "refused 135 1:1", 10),
    ("int main(void){return 300;}", "", "", "exit 44", 1),
    ("int main(void){return 2047;}", "", "", "exit 255", 1),
    ("int main(void){return 2048;}", "", "", "exit 0", 0),
    ("int main(void){int a=7,z=0,m=-2147483647-1,k=-1;if(a/z==-1)putchar(65);if(m/k==m)putchar(66);return 0;}", "",
     "AB", "exit 0", 0),
    (ECHO, "", "", "exit 0", 0),
    (ECHO, "abc", "abc", "exit 0", 0),
    ("int main(void){return 0;}@", "", "", "refused 100 1:26", 10),
    ("int main(void){return 0;}/*", "", "", "refused 101 1:26", 10),
    ("int main(void){return 18446744073709551616;}", "", "", "refused 102 1:23", 10),
    ("float x;", "", "", "refused 103 1:1", 10),
    ("#pragma pack(1)", "", "", "refused 104 1:1", 10),
    ("int main(void){return 0;", "", "", "refused 120", 10),
    ("(" * 201, "", "", "refused 121 1:201", 10),
    ("int main(void){return x;}", "", "", "refused 130 1:23", 10),
    ("int a;char a;" + END, "", "", "refused 131 1:12", 10),
    ("struct S s;" + END, "", "", "refused 132 1:10", 10),
    ("int main(void){int *p=5;return 0;}", "", "", "refused 133 1:23", 10),
    ("int n;int a[n];" + END, "", "", "refused 134 1:13", 10),
    ("int main(void){putchar();return 0;}", "", "", "refused 136 1:16", 10),
    ("char a[67108865];" + END, "", "", "refused 140 1:6", 10),
    ("char a[40000000];char b[40000000];" + END, "", "", "refused 141 1:1", 10),
    (" " * 4_194_305, "", "", "refused 143 1:1", 10),
    ("typedef int T;int main(void){T T=3;return T;}", "", "", "refused 120", 10),
    ("int a[2]={1,2,3};" + END, "", "", "refused 133 1:10", 10),
    ("int f(void);int main(void){return f();}", "", "", "refused 130 1:35", 10),
    ("enum{A=1/0};" + END, "", "", "refused 134 1:8", 10),
    ("int a[]; " + END, "", "", "refused 132 1:5", 10),
    ("int a[3]={1,2,3,};" + END, "", "", "exit 0", 0),
    ("char s[2]=\"ab\";" + END, "", "", "exit 0", 0),
    # A function that is declared and not defined is none of the program's.
    ("int f(void);" + END, "", "", "exit 0", 0),
]

# A C file, what `run` puts and its line (None where it has an own row, or where addresses decide), what `mean` puts and
# its line.
MEAN = [
    ("int main(void){int a[10];int i;for(i=0;i<=10;i=i+1){a[i]=i;putchar(65+i);}return 0;}",
     ("ABCDEFGHIJ", "trap bounds 1:54"),
     "ABCDEFGHIJ", "trap bounds 1:54"),
    ("int main(void){char *p=malloc(100000);p[100095]=1;putchar(79);p[100096]=1;return 0;}", ("O", "trap bounds 1:64"),
     "", "unspecified padding 1:40"),
    ("int main(void){int x=5;int *p=&x;unsigned char *c=(unsigned char*)&p;c[0]=c[0];putchar(48+*p);return 0;}",
     ("", "trap tag 1:91"),
     "", "unspecified address 1:76"),
    ("int main(void){\nchar a[40];char *p=a+400;p=p-400;p[0]=65;putchar(a[0]);\np=a+20000;p=p-20000;\np[0]=66;return "
     "0;}",
     ("A", "trap tag 4:2"), "A", "unspecified excursion 3:4"),
    ("int main(void){int a=7,z=0,m=-2147483647-1,k=-1;if(a/z==-1)putchar(65);if(m/k==m)putchar(66);return 0;}",
     ("AB", "exit 0"),
     "", "unspecified undefined 1:53"),
    ("int main(void){char *s=\"ab\";putchar(s[0]);s[1]=65;return 0;}", ("a", "trap store 1:44"), "a",
     "trap store 1:44"),
    ("int main(void){int x=8;struct P{int *p;char c;}a,b;a.p=&x;b=a;putchar(48+*b.p);return 0;}", ("8", "exit 0"), "8",
     "exit 0"),
    ("int *f(void){int x=1;return &x;}int main(void){int *p=f();return *p;}", None, "", "outside 1:66"),
    ("int main(void){int x;return x;}", ("", "exit 0"), "", "unspecified unwritten 1:29"),
    ("int *f(void){int x=1;return &x;}int main(void){int *p=f();int *q=f();return p==q;}", None, "",
     "unspecified address 1:78"),
    ("int main(void){int x=1,y=2;return &x==&y;}", ("", "exit 0"), "", "exit 0"),
    ("int main(void){int x=1,y=2;return &x<&y;}", None, "", "unspecified address 1:37"),
    ("int main(void){return 1<<32;}", ("", "exit 1"), "", "unspecified undefined 1:24"),
    ("struct S{int a[4];}s[2];int main(void){struct S *p=(struct S*)((int*)s+1);s[0]=*p;return 0;}", ("", "exit 0"),
     "", "unspecified overlap 1:79"),
]


def said_of(stderr):
    """What the command says on standard error: without what the script before it says."""
    return "".join(it for it in stderr.decode().splitlines(True) if not it.startswith("cheric: "))


class Rows:
    """A folder, in which the rows run, and the rows that were answered otherwise."""

    def __init__(self, folder):
        self.folder, self.count, self.wrong = folder, 0, 0

    def write(self, name, data):
        with open(f"{self.folder}/{name}", "wb") as file:
            file.write(data if isinstance(data, bytes) else data.encode())

    def read(self, name):
        with open(f"{self.folder}/{name}", "rb") as file:
            return file.read()

    def there(self):
        return sorted(os.listdir(self.folder))

    def row(self, words, output, line, status, taken="", out=None):
        """The words behind `cheric` are answered so; with any output where it is None, without a line where that is."""
        self.count += 1
        run = subprocess.run([CHERIC, *words], cwd=self.folder, input=None if taken is None else taken.encode(),
                             stdout=out or subprocess.PIPE, stderr=subprocess.PIPE)
        got = (run.stdout.decode("latin-1") if run.stdout is not None else output, said_of(run.stderr), run.returncode)
        first = got[1].splitlines()[0] if got[1] else ""
        # A refusal by 120 is at any place, and texts are put without a line.
        whole = "" if line is None else line + "\n"
        same = first.startswith(line + " ") if line == "refused 120" else got[1] == whole
        if (output is not None and got[0] != output) or got[2] != status or not same:
            self.wrong += 1
            print(f"cheric {' '.join(words)}: {got}, and not {(output, line, status)}")

    def row_of_one_byte(self, words, output, line, status):
        """The same, where the output takes one byte and fails from the second on."""

        def limited():
            signal.signal(signal.SIGXFSZ, signal.SIG_IGN)
            resource.setrlimit(resource.RLIMIT_FSIZE, (1, 1))

        with open(f"{self.folder}/output", "wb") as out:
            run = subprocess.run([CHERIC, *words], cwd=self.folder, stdin=subprocess.DEVNULL, stdout=out,
                                 stderr=subprocess.PIPE,
                                 preexec_fn=limited)
        got = (self.read("output").decode("latin-1"), said_of(run.stderr), run.returncode)
        os.remove(f"{self.folder}/output")
        self.holds(f"cheric {' '.join(words)}: {got}", got == (output, line + "\n", status))

    def row_of_a_broken_input(self, words, output, line, status):
        """The same, on an input of the byte `a` whose next read fails: a terminal whose other end was closed."""
        near, far = os.openpty()
        tty.setraw(far)
        os.write(far, b"a")
        os.close(far)
        run = subprocess.run([CHERIC, *words], cwd=self.folder, stdin=near, stdout=subprocess.PIPE,
                             stderr=subprocess.PIPE)
        os.close(near)
        got = (run.stdout.decode("latin-1"), said_of(run.stderr), run.returncode)
        self.holds(f"cheric {' '.join(words)}: {got}", got == (output, line + "\n", status))

    def holds(self, what, is_so):
        self.count += 1
        if not is_so:
            self.wrong += 1
            print(what)


def run_rows(rows):
    with open(f"{ROOT}/bench/run_rows.json") as file:
        more = [(x["text"], "", x["out"], x["line"], x["status"]) for x in json.load(file)]
    for text, taken, output, line, status in RUN + more:
        rows.write("a.c", text)
        rows.row(["run", "a.c"], output, line, status, taken)
    rows.write("a.c", HI)
    rows.row(["run", "a.c", "--steps", "0"], "", "steps", 4)
    rows.write("loop.c", "int main(void){while(1){}}")
    rows.row(["run", "loop.c", "--steps", "1000"], "", "steps", 4)
    with open("/dev/full", "wb") as full:
        rows.row(["run", "a.c"], "", "output", 22, out=full)
    rows.row_of_one_byte(["run", "a.c"], "H", "output", 22)
    rows.write("echo.c", ECHO)
    rows.row_of_a_broken_input(["run", "echo.c"], "a", "input", 21)
    rows.row(["run", "none.c"], "", "file", 20)


def status_of(line):
    """The status of a line that `run` or `mean` ends with."""
    word = line.split()[0]
    return {"trap": 2, "stack": 3, "unspecified": 5, "outside": 5}.get(word, int(line != "exit 0"))


def mean_rows(rows):
    for text, run, output, line in MEAN:
        rows.write("a.c", text)
        if run is not None:
            rows.row(["run", "a.c"], *run, status_of(run[1]))
        rows.row(["mean", "a.c"], output, line, status_of(line))
    rows.write("loop.c", "int main(void){while(1){}}")
    rows.row(["mean", "loop.c", "--turns", "10"], "", "turns", 4)
    rows.write("deep.c", "int f(int n){putchar(46);return f(n+1);}int main(void){return f(0);}")
    rows.row(["mean", "deep.c", "--turns", "1000000"], "." * 1_000_000, "turns", 4)
    rows.row(["mean", f"{ROOT}/examples/words.c"], "be 2\nnot 1\nor 1\nto 2\n", "exit 0", 0, "to be or not to be\n")


def text_rows(rows):
    for number, summary in [(1, "functions 1\nsource 150\nexit 16\n"), (3, "functions 3\nsource 322\nexit 40\n")]:
        for words in [["gen", str(number)]] * 2:
            rows.row(words, summary, None, 0)
    rows.row(["gen", "0"], "", "words", 11)
    rows.write("a.c", HI)
    rows.row(["map", "a.c"], None, None, 0)
    rows.row(["list", "a.c"], None, None, 0)
    text = subprocess.run([CHERIC, "map", "a.c"], cwd=rows.folder, capture_output=True, text=True).stdout
    size = next(int(row.split()[2]) for row in text.splitlines() if row.startswith("text "))
    listing = subprocess.run([CHERIC, "list", "a.c"], cwd=rows.folder, capture_output=True, text=True).stdout
    rows.holds("the listing has a line for each word of the text", len(listing.splitlines()) == size // 4)


def line_rows(rows):
    for words in [["run"], ["fly", "a.c"], ["run", "a.c", "--steps"], ["run", "a.c", "--steps", "1000000000001"],
                  ["run", "a.c", "--steps", "+1"], ["build", "a.c", "--out"], ["exec"], ["run", "a.c", "b.c"]]:
        rows.row(words, "", "words", 11)


def image_rows(rows):
    rows.write("a.c", HI)
    before = rows.there()
    rows.row(["build", "a.c", "--out", "a.elf"], "", f"built {len_of_build(rows)}", 0)
    elf = rows.read("a.elf")
    rows.row(["build", "a.c"], "", f"built {len(elf)}", 0)
    rows.holds("a.c.elf differs from a.elf", rows.read("a.c.elf") == elf)
    rows.row(["exec", "a.elf"], "Hi", "exit 0", 0)
    rows.row(["exec", "a.elf", "--steps", "0"], "", "steps", 4)
    rows.row_of_one_byte(["exec", "a.elf"], "H", "output", 22)
    rows.row(["exec", "a.c"], "", "image 1", 12)
    for cut, number in [(elf[:-1], 5), (elf[:63], 1)]:
        rows.write("cut.elf", cut)
        rows.row(["exec", "cut.elf"], "", f"image {number}", 12)
    rows.write("bad.c", "int main(void){return x;}")
    rows.row(["build", "bad.c"], "", "refused 130 1:23", 10)
    rows.holds("a refused file put a name", rows.there() == sorted(before + ["a.c.elf", "a.elf", "bad.c", "cut.elf"]))
    rows.row(["build", "a.c", "--out", "none/a.elf"], "", "file", 20)


def len_of_build(rows):
    """The length of the file that is built, by another name."""
    subprocess.run([CHERIC, "build", "a.c", "--out", "length"], cwd=rows.folder, stderr=subprocess.DEVNULL, check=True)
    length = len(rows.read("length"))
    os.remove(f"{rows.folder}/length")
    return length


def example_rows(rows):
    """The examples; what each one shows stands in its first lines. Output that a frame's size decides isn't compared."""
    for name, taken, output, line, status in [
        ("hi.c", "", "Hi", "exit 0", 0), ("bytes.c", "", "Hi", "exit 0", 0), ("bye.c", "", "bye", "exit 44", 1),
        ("echo.c", "one line\n", "one line\n", "exit 0", 0), ("trap_tag.c", "", "7", "trap tag 8:19", 2),
        ("trap_sealed.c", "", "f", "trap sealed 10:12", 2), ("trap_load.c", "", "w", "trap load 8:14", 2),
        ("trap_store.c", "", "a", "trap store 6:6", 2), ("trap_storecap.c", "", "i", "trap storecap 10:5", 2),
        ("trap_bounds.c", "", "ABCDEFGHIJ", "trap bounds 6:10", 2), ("trap_align.c", "", "1", "trap align 7:16", 2),
        ("trap_execute.c", "", "A", "trap execute 11:13", 2), ("padding.c", "", "PO", "trap bounds 9:6", 2),
        ("member_bounds.c", "", "4", "trap bounds 13:6", 2), ("provenance.c", "", "22", "trap tag 12:19", 2),
        ("far_pointer.c", "", "A", "trap tag 10:6", 2), ("capabilities.c", "", "1\n40\n8\n4\n", "trap bounds 16:6", 2),
        ("heap_is_full.c", "", "YN", "exit 0", 0), ("list.c", "sorted\n", "deorst", "exit 6", 1),
        ("function_pointers.c", "", "7\n3\n10\n2\n", "exit 0", 0), ("structs.c", "", "8\n2\n5\n", "exit 0", 0),
        ("words.c", "to be or not to be\n", "be 2\nnot 1\nor 1\nto 2\n", "exit 0", 0),
        ("wraps.c", "", "WDRS", "exit 0", 0),
        ("stack_exhausted.c", "", None, "stack 4:12", 3),
    ]:
        rows.row(["run", f"{ROOT}/examples/{name}"], output, line, status, taken)
    for reason, run, mean, line in [
        ("address", "<", "", "unspecified address 6:15"), ("undefined", "3N", "3", "unspecified undefined 9:14"),
        ("unwritten", "10", "1", "unspecified unwritten 7:24"), ("padding", "ab", "a", "unspecified padding 8:6"),
        ("rounding", ">", "", "unspecified rounding 5:31"), ("excursion", "1", "1", "unspecified excursion 8:19"),
        ("heap", "YN", "Y", "unspecified heap 6:21"), ("overlap", "1", "1", "unspecified overlap 9:10"),
        ("outside", None, "7", "outside 9:19"),
    ]:
        name = f"{ROOT}/examples/mean_{reason}.c"
        if run is not None:
            rows.row(["run", name], run, "exit 0", 0)
        rows.row(["mean", name], mean, line, 5)


def main():
    prepared()
    with tempfile.TemporaryDirectory() as folder:
        rows = Rows(folder)
        for part in (run_rows, mean_rows, text_rows, line_rows, image_rows, example_rows):
            part(rows)
        print(f"{rows.count} rows, {rows.wrong} answered otherwise")
        return 1 if rows.wrong else 0


if __name__ == "__main__":
    sys.exit(main())
