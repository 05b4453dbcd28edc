#!/usr/bin/env python3
"""bench/gate.py [--run]: how large each crate is, and with --run how long the gate takes from nothing.

Each line has a crate, the lines of its sources, definitions and proofs, and its wrong bodies: those that the gate tries
and the others. With --run it starts `rt ci --anew` at the top of the repository, which keeps and uses nothing, shows
when each crate was proved, and ends with the time by the clock and that of the processors. It proves nothing itself."""
import argparse
import os
import resource
import subprocess
import sys
import time

from calls import ROOT


def crates():
    with open(f"{ROOT}/crates.txt", encoding="utf-8") as file:
        return [line.partition(":")[0] for line in file if ":" in line and not line.startswith("#")]


def lines_below(folder, ending):
    """The lines of the files below a folder whose names end so."""
    count = 0
    for at, _, names in os.walk(folder):
        for name in names:
            if name.endswith(ending):
                with open(f"{at}/{name}", "rb") as file:
                    count += file.read().count(b"\n")
    return count


def entries(folder):
    return len(os.listdir(folder)) if os.path.isdir(folder) else 0


def sizes_of(crate):
    at = f"{ROOT}/crates/{crate}"
    parts = (("src", ".rt"), ("specs", ".antt"), ("proofs", ".antt"))
    lines = [lines_below(f"{at}/{part}", end) for part, end in parts]
    return [*lines, entries(f"{at}/must-fail"), entries(f"{at}/wrong-bodies")]


def show_sizes():
    total = [0] * 5
    print("| Crate | Sources | Definitions | Proofs | Wrong bodies |\n|---|---|---|---|---|")
    for crate in crates():
        sizes = sizes_of(crate)
        total = [one + other for one, other in zip(total, sizes)]
        print(row(crate, sizes))
    print(row("all", total))


def row(name, sizes):
    source, specs, proofs, tried, others = (f"{size:,}" for size in sizes)
    return f"| {name} | {source} | {specs} | {proofs} | {tried} and {others} |"


def run_gate():
    began = time.monotonic()
    last = ""
    with subprocess.Popen(["rt", "ci", "--anew"], cwd=ROOT, stdout=subprocess.PIPE, text=True) as gate:
        for line in gate.stdout:
            last = line.strip() or last
            if line.startswith("rt: ") and line.endswith(" proved\n"):
                print(f"{(time.monotonic() - began) / 60:6.1f} min  {line[4:].strip()}", flush=True)
    used = resource.getrusage(resource.RUSAGE_CHILDREN)
    print(f"{last}: {(time.monotonic() - began) / 60:.1f} minutes, {(used.ru_utime + used.ru_stime) / 60:.0f} of the "
          f"processors")
    return gate.returncode


def main():
    words = argparse.ArgumentParser(description=__doc__.split("\n", maxsplit=1)[0])
    words.add_argument("--run", action="store_true", help="run the gate from nothing, and time it")
    show_sizes()
    return run_gate() if words.parse_args().run else 0


if __name__ == "__main__":
    sys.exit(main())
