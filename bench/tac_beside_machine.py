#!/usr/bin/env python3
"""bench/tac_beside_machine.py [COUNT [SEED]] [--random | --dense] [--meaning] [--keep FOLDER]: three-address code by
`run_tac` and by the machine.

COUNT programs of whole_programs.py (100 by default, from SEED 1 on), with --dense those of dense_programs.py, are
lowered and built; `run_tac` runs the code under the map of the build, and the machine the image, both with the
program's text as their input. With --random the code is made by the generator of tac_beside_machine/code.rt.txt, for
the functions and types of tac_beside_machine/program.c: every instruction, operation and kind. It goes through homes,
frames and selection, and the machine's run is compared with `run_tac`'s. With --meaning the placed run of `mean` under
the map of the build stands in the place of `run_tac`. Both must put the same bytes, take as many, and end alike; where
no turn is left, or the meaning leaves the rest open, one output must begin with the other. Each line printed has a
program and how both answered, and the last one counts the answers. With --keep the programs are put into FOLDER. It
runs on a copy of the sources with no proof (`rt try`), for minutes; it proves nothing and is no part of the gate."""
import argparse
import collections
import os
import re
import shutil
import subprocess
import sys
import tempfile

import dense_programs
import whole_programs
from calls import ROOT

NAME = "tac_beside_machine"
USES = ("ck_base ck_int c_tree cap_layout program_needs bounds_place obj_mem tac_ir tac_run c_mean rv_select "
        "typed_build cheric_build "
        "cap_machine elf_file image_load")
# What the copy of typed_build offers beside its own: the steps from three-address code to an image.
OFFERS = """
pub use frames::frames_of;
pub use homes::places_of;
pub use written::{Selected, Written, write_program};
"""
SECONDS = "3600"


def copied(work):
    """A copy of the sources, with the program that compares; its folder."""
    shutil.copytree(f"{ROOT}/crates", f"{work}/crates", ignore=shutil.ignore_patterns("out", "must-fail"))
    with open(f"{ROOT}/crates.txt", encoding="utf-8") as file:
        crates = file.read()
    with open(f"{work}/crates.txt", "w", encoding="utf-8") as file:
        file.write(f"{crates}{NAME}: {USES}\n")
    with open(f"{work}/crates/typed_build/src/lib.rt", "a", encoding="utf-8") as file:
        file.write(OFFERS)
    subprocess.run(["git", "init", "-q", work], check=True)
    folder = f"{work}/crates/{NAME}"
    os.makedirs(f"{folder}/src")
    for name in os.listdir(f"{ROOT}/bench/{NAME}"):
        target = f"src/{name.removesuffix('.txt')}" if name.endswith(".rt.txt") else name
        shutil.copyfile(f"{ROOT}/bench/{NAME}/{name}", f"{folder}/{target}")
    return folder


def programs(folder, seeds, words):
    """Writes the programs of some seeds, and gives their names."""
    os.makedirs(f"{folder}/programs")
    for seed in seeds:
        text = dense_programs.programs(seed)[0] if words.dense else whole_programs.program(seed)
        with open(f"{folder}/programs/{seed}.c", "w", encoding="utf-8") as file:
            file.write(text)
    if words.keep:
        shutil.copytree(f"{folder}/programs", words.keep, dirs_exist_ok=True)
    return [f"programs/{seed}.c" for seed in seeds]


def main():
    words = argparse.ArgumentParser(description=__doc__, formatter_class=argparse.RawDescriptionHelpFormatter)
    words.add_argument("count", nargs="?", type=int, default=100, metavar="COUNT")
    words.add_argument("seed", nargs="?", type=int, default=1, metavar="SEED")
    words.add_argument("--random", action="store_true", help="random three-address code")
    words.add_argument("--dense", action="store_true", help="dense expressions with side effects")
    words.add_argument("--meaning", action="store_true", help="the meaning of programs in place of code")
    words.add_argument("--keep", metavar="FOLDER", help="where the programs are put")
    words = words.parse_args()
    seeds = range(words.seed, words.seed + words.count)
    with tempfile.TemporaryDirectory() as work:
        folder = copied(work)
        args = [str(seed) for seed in seeds] if words.random else programs(folder, seeds, words)
        if words.meaning:
            args.insert(0, "meaning")
        run = subprocess.run(["rt", "try", "--steps", "1", "--seconds", SECONDS, "--data", "program.c=program.c", "--",
                              *args],
                             cwd=folder, capture_output=True, text=True, check=False)
    print(run.stdout, end="")
    counts = collections.Counter(re.findall(r"^\S+: (\w+)$", run.stdout, re.MULTILINE))
    if sum(counts.values()) != words.count:
        print(run.stderr, file=sys.stderr)
    print(", ".join(f"{count} {answer}" for answer, count in counts.most_common()))
    return 0 if sum(counts.values()) == words.count and not counts["Differ"] else 1


if __name__ == "__main__":
    sys.exit(main())
