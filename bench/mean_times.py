#!/usr/bin/env python3
"""bench/mean_times.py [--cheric COMMAND]: what `mean` takes for a loop, for nested calls and for an allocation.

Seconds are those of a processor for the whole process, and memory is its peak of resident bytes. The nodes of a turn
are the names, numbers and operators of its test, step and body. It proves nothing and is no part of the gate."""
import os
import re
import subprocess
import tempfile

from calls import parser, timed

TURNS, CALLS, BYTES = 2_000_000, 1_000_000, 8_000_000
TEST, STEP, BODY = f"i<{TURNS}", "i=i+1", "s=(s*5+(i&7))%9973;a[i&15]=s;s=s+a[(i+5)&15];"
NODES = len(re.findall(r"\w+|[<*+%&=\[]", TEST + ";" + STEP + ";" + BODY))
LOOP = (f"int main(void){{int i;int s=0;int a[16];for(i=0;i<16;i=i+1)a[i]=i;"
        f"for(i=0;{TEST};{STEP}){{{BODY}}}return s>0;}}")
NESTED = f"int f(int n){{return n?f(n-1)+1:0;}}int main(void){{return f({CALLS})=={CALLS};}}"
ALLOCATED = (f"void *malloc(unsigned long);"
             f"int main(void){{char *p=malloc({BYTES});p[{BYTES - 1}]=1;return p[{BYTES - 1}];}}")


def run(cheric, text):
    """The answer of `mean` to a text, its seconds and its megabytes."""
    with tempfile.TemporaryDirectory() as work, tempfile.TemporaryFile() as line:
        source = f"{work}/a.c"
        with open(source, "w", encoding="utf-8") as file:
            file.write(text)
        child = subprocess.Popen([cheric, "mean", source], stdin=subprocess.DEVNULL, stdout=subprocess.DEVNULL,
                                 stderr=line)
        _, status, usage = os.wait4(child.pid, 0)
        child.returncode = os.waitstatus_to_exitcode(status)
        line.seek(0)
        return line.read().decode().strip(), usage.ru_utime + usage.ru_stime, usage.ru_maxrss / 1024


def main():
    cheric = timed(parser(__doc__).parse_args().cheric)
    line, seconds, _ = run(cheric, LOOP)
    print(f"{TURNS} turns of {NODES} nodes: {line}, {seconds:.2f} s, {TURNS * NODES / seconds / 1e6:.1f} million "
          f"nodes a second")
    for name, text in ((f"{CALLS} nested calls", NESTED), (f"{BYTES} bytes allocated", ALLOCATED)):
        line, seconds, memory = run(cheric, text)
        print(f"{name}: {line}, {seconds:.2f} s, {memory:.0f} MB")


if __name__ == "__main__":
    main()
