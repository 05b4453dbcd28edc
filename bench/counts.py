#!/usr/bin/env python3
"""bench/counts.py: how the sources stand, in numbers.

How many crates there are and how long their longest chain is; the lines of sources (with and without tests),
definitions and proofs; the sources over 600 lines and the lines over 120 columns; the source files without a head; the
names of public definitions that stand in two crates or more, in all and within one family of crates.txt; and the
clauses of contracts that stand most often. It proves nothing."""
import collections
import glob
import os
import re

from pages import TOP, families, text_of

DEFINED = re.compile(r"^(?:abbrev |unfoldable |irreducible )*pub (?:record |data |abbrev |unfoldable )*([A-Za-z_][\w-]*)", re.M)
CLAUSE = re.compile(r"^\s*(?:requires|ensures)\s+(?:\w+\s+)?\{(.*?)\}\s*$", re.M)


def files_of(part):
    found = glob.glob(f"{TOP}/crates/*/{part}/**/*.*", recursive=True)
    return sorted(os.path.relpath(it, TOP) for it in found if it.endswith((".rt", ".antt")))


def is_test(path):
    return path.split("/")[1].endswith("_rows") or path.endswith(("/tests.rt", "_tests.rt")) or "/tests/" in path


def longest_chain(deps):
    heights = {}

    def height(name):
        if name not in heights:
            heights[name] = 1 + max((height(it) for it in deps[name] if it in deps), default=0)
        return heights[name]

    return max(map(height, deps))


def shared_names(family_of):
    places = collections.defaultdict(set)
    for path in files_of("specs"):
        for name in DEFINED.findall(text_of(path)):
            places[name].add(path.split("/")[1])
    shared = {name: crates for name, crates in places.items() if len(crates) > 1}
    near = 0
    for crates in shared.values():
        counted = collections.Counter(family_of[it] for it in crates)
        near += max(counted.values()) > 1
    return len(shared), near


def main():
    every = families()
    deps = {name: names for _, crates in every for name, names in crates}
    family_of = {name: heading for heading, crates in every for name, _ in crates}
    print(f"crates {len(deps)}")
    print(f"longest chain {longest_chain(deps)}")
    sources = files_of("src")
    count = {it: text_of(it).count("\n") for part in ("src", "specs", "proofs") for it in files_of(part)}
    print(f"lines of sources without tests {sum(count[it] for it in sources if not is_test(it)):,}")
    print(f"lines of tests in files of their own {sum(count[it] for it in sources if is_test(it)):,}")
    print(f"lines of definitions {sum(count[it] for it in files_of('specs')):,}")
    print(f"lines of proofs {sum(count[it] for it in files_of('proofs')):,}")
    long_files = [it for it in sources if count[it] > 600]
    print(f"sources over 600 lines {len(long_files)}: {' '.join(long_files)}")
    wide = sum(len(line) > 120 for it in count for line in text_of(it).splitlines())
    print(f"lines over 120 columns {wide}")
    print(f"sources without a head {sum(not text_of(it).startswith('//!') for it in sources)}")
    print("names of public definitions in two crates or more {}, in one family {}".format(*shared_names(family_of)))
    clauses = collections.Counter(it.strip() for path in sources for it in CLAUSE.findall(text_of(path)))
    print("clauses that stand most often:")
    for clause, times in clauses.most_common(8):
        print(f"  {times} times {clause}")


if __name__ == "__main__":
    main()
