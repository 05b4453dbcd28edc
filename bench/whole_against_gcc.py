#!/usr/bin/env python3
"""bench/whole_against_gcc.py [COUNT [SEED]] [--dense | --trap | --large] [--jobs N] [--keep FOLDER]: compares generated
programs with gcc.

COUNT programs of whole_programs.py (100 by default, from SEED 1 on) are run by `./cheric run` and as `gcc -O0 -fwrapv
-funsigned-char` builds them; both get the program's own text as their input, and must put the same bytes and exit with
the same number. With --dense the programs are those of dense_programs.py: cheric gets the dense one, gcc the one with
its steps written out. With --trap one statement fails a check of the machine, and an exit stands in its place for gcc:
a run that comes there must end by that check at its place. With --large a program has 500 to 3,000 functions. Programs
over the limit of weight (142), those that are not built yet (150), and those on which gcc fails in itself are counted
apart. With --keep the programs that are answered
otherwise are put into FOLDER, as SEED.c and, where gcc gets another text, SEED.gcc.c. It needs gcc and what ./cheric
needs. It proves nothing and is no part of the gate."""
import os
import subprocess
import sys
import tempfile

import dense_programs
import whole_programs
from calls import Answer, answer_of, each, parser, prepared

GCC = ["gcc", "-O0", "-w", "-fwrapv", "-funsigned-char", "-include", "stdint.h", "-include", "stddef.h"]
STEPS = "10000000000"


def pair(seed, words):
    """The program for cheric, the one for gcc, and the line with which a run ends that comes to the failing check."""
    if words.trap:
        return whole_programs.trapping(seed)
    if words.large:
        return (whole_programs.large(seed),) * 2 + ("",)
    if words.dense:
        return (*dense_programs.programs(seed), "")
    text = whole_programs.program(seed)
    return text, text, ""


def by_gcc(work, text, taken, trap):
    """The answer by gcc, or none where gcc fails in itself, as it does at `(_Bool)(3, 3)`."""
    source, target = f"{work}/gcc.c", f"{work}/gcc"
    with open(source, "w", encoding="utf-8") as file:
        file.write(text)
    built = subprocess.run([*GCC, "-o", target, source], capture_output=True, text=True, check=False)
    if "internal compiler error" in built.stderr:
        return None
    built.check_returncode()
    run = answer_of([target], taken)
    if trap and run.status == whole_programs.TRAPPED:
        return Answer(run.output, trap, 2)
    return Answer(run.output, f"exit {run.status}", 1 if run.status else 0)


def by_cheric(cheric, work, text):
    source = f"{work}/cheric.c"
    with open(source, "w", encoding="utf-8") as file:
        file.write(text)
    return answer_of([cheric, "run", source, "--steps", STEPS], text.encode())


def programs_parser(text):
    """A command line that says which generated programs are taken: how many, from which seed on, and of which kind."""
    words = parser(text)
    words.add_argument("count", nargs="?", type=int, default=100, metavar="COUNT")
    words.add_argument("seed", nargs="?", type=int, default=1, metavar="SEED")
    words.add_argument("--dense", action="store_true", help="dense expressions with side effects")
    words.add_argument("--trap", action="store_true", help="a failing check in each program")
    words.add_argument("--large", action="store_true", help="500 to 3,000 functions in each program")
    return words


def main():
    words = programs_parser(__doc__)
    words.add_argument("--keep", metavar="FOLDER", help="where programs that are answered otherwise are put")
    words = words.parse_args()
    cheric = prepared(words.cheric)

    def compared(seed):
        with tempfile.TemporaryDirectory() as work:
            text, other, trap = pair(seed, words)
            got = by_cheric(cheric, work, text)
            if got.line in ("refused 142 1:1", "refused 150 1:1"):
                return seed, got, None
            return seed, got, by_gcc(work, other, text.encode(), trap)

    heavy = unbuilt = failed = other = 0
    for seed, got, want in each(compared, range(words.seed, words.seed + words.count), words.jobs):
        if want is None:
            heavy += got.line.startswith("refused 142")
            unbuilt += got.line.startswith("refused 150")
            failed += not got.line.startswith("refused")
        elif got != want:
            other += 1
            print(f"seed {seed}: {got}; gcc {want}", flush=True)
            if words.keep:
                keep(words.keep, seed, *pair(seed, words)[:2])
    print(f"{words.count} programs, {heavy} of them too heavy (142), {unbuilt} not built yet (150), {failed} on which "
          f"gcc fails in itself, {other} answered otherwise than by gcc")
    return 1 if other else 0


def keep(folder, seed, text, other):
    os.makedirs(folder, exist_ok=True)
    for name, one in [(f"{seed}.c", text)] + ([(f"{seed}.gcc.c", other)] if other != text else []):
        with open(f"{folder}/{name}", "w", encoding="utf-8") as file:
            file.write(one)


if __name__ == "__main__":
    sys.exit(main())
