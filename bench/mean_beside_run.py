#!/usr/bin/env python3
"""bench/mean_beside_run.py [COUNT [SEED]] [--dense | --trap] [--jobs N]: compares the strict meaning of generated
programs with their runs.

COUNT programs of whole_programs.py (100 by default, from SEED 1 on; with --dense those of dense_programs.py, with
--trap such as fail a check) go through `./cheric mean` and `./cheric run`, with the program's own text as their input.
Where the strict meaning is defined, the run must put the same bytes and end alike. Where it ends by a reason, outside
or at the limit of turns, the run must begin with its bytes; these are counted by their reason. It proves nothing and is
no part of the gate."""
import collections
import sys
import tempfile

from calls import answer_of, each, prepared
from whole_against_gcc import STEPS, pair, programs_parser

TURNS = "10000000"
OPEN = ("unspecified", "outside", "turns")


def main():
    words = programs_parser(__doc__).parse_args()
    cheric = prepared(words.cheric)

    def compared(seed):
        with tempfile.TemporaryDirectory() as work:
            text = pair(seed, words)[0]
            source = f"{work}/a.c"
            with open(source, "w", encoding="utf-8") as file:
                file.write(text)
            taken = text.encode()
            return (seed, answer_of([cheric, "mean", source, "--turns", TURNS], taken),
                    answer_of([cheric, "run", source, "--steps", STEPS], taken))

    ended, other = collections.Counter(), 0
    for seed, mean, run in each(compared, range(words.seed, words.seed + words.count), words.jobs):
        is_open = mean.line.startswith(OPEN)
        ended[" ".join(mean.line.split()[:2]) if mean.line.startswith("unspecified") else mean.line.split()[0]] += 1
        if not (run.output.startswith(mean.output) if is_open else run == mean):
            other += 1
            print(f"seed {seed}: mean {mean}; run {run}", flush=True)
    print(f"{words.count} programs, {other} answered otherwise; ends of the strict meaning:",
          ", ".join(f"{count} {end}" for end, count in ended.most_common()))
    return 1 if other else 0


if __name__ == "__main__":
    sys.exit(main())
