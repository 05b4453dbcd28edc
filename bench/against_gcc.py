#!/usr/bin/env python3
"""bench/against_gcc.py [COUNT [SEED]]: compares COUNT generated programs (200 by default, from SEED 1 on) with gcc.

Each is run by `./cheric run` and as `gcc -O0 -fwrapv -funsigned-char` builds it; both must put the same bytes and exit
with the same number. It needs gcc and what ./cheric needs. It proves nothing and is no part of the gate."""
import subprocess
import sys
import tempfile

from calls import ROOT, prepared
from programs import program


def by_cheric(source):
    """The output and the exit number, or the line where the program is not run to its end."""
    run = subprocess.run([f"{ROOT}/cheric", "run", source], stdin=subprocess.DEVNULL, capture_output=True)
    line = run.stderr.decode().splitlines()[-1] if run.stderr else ""
    if not line.startswith("exit "):
        return None, line
    return (run.stdout, int(line[5:])), line


def by_gcc(source, target):
    subprocess.run(["gcc", "-O0", "-w", "-fwrapv", "-funsigned-char", "-include", "stdio.h", "-o", target, source],
                   check=True)
    run = subprocess.run([target], stdin=subprocess.DEVNULL, capture_output=True, timeout=10)
    return run.stdout, run.returncode


def main():
    count = int(sys.argv[1]) if len(sys.argv) > 1 else 200
    seed = int(sys.argv[2]) if len(sys.argv) > 2 else 1
    other = 0
    prepared()
    with tempfile.TemporaryDirectory() as work:
        source, target = f"{work}/p.c", f"{work}/p"
        for k in range(seed, seed + count):
            with open(source, "w") as file:
                file.write(program(k))
            got, line = by_cheric(source)
            want = by_gcc(source, target)
            if got != want:
                other += 1
                print(f"seed {k}: cheric {got if got else line}, gcc {want}\n{program(k)}")
    print(f"{count} programs, {other} answered otherwise than by gcc")
    return 1 if other else 0


if __name__ == "__main__":
    sys.exit(main())
