#!/usr/bin/env python3
"""bench/lent_granules.py: a granule that memory lends can't be used after the next write.

In a copy of the sources the tests of machine_rows get a function that reads a lent granule behind a write. The compiler
must refuse it, by E0502; with the write before the loan it must take it, and the tests must pass. It takes minutes,
proves nothing, and is no part of the gate."""
import os
import shutil
import subprocess
import sys
import tempfile

ROOT = os.path.dirname(os.path.dirname(os.path.abspath(__file__)))
WRITE, LEND = "    mem.write(at, 1, 7);\n", "    let granule = mem.granule(at)?;\n"
FUNCTION = """
/// The number in a granule, and a write.
fn number_and_write(mem: &mut Mem, at: u64) -> Option<u128>
    requires {{ at % 16 ≡ 0 }}
{{
{lines}    Some(u128::from_le_bytes(*granule))
}}
"""


def tried(lines):
    """The status and the words of `rt try --test` with the function of these lines."""
    with tempfile.TemporaryDirectory() as top:
        shutil.copytree(f"{ROOT}/crates", f"{top}/crates", ignore=shutil.ignore_patterns("out", "must-fail"))
        for name in ("crates.txt", "HANDLES"):
            shutil.copy(f"{ROOT}/{name}", top)
        subprocess.run(["git", "init", "-q", top], check=True)
        with open(f"{top}/crates/machine_rows/src/memory.rt", "a", encoding="utf-8") as file:
            file.write(FUNCTION.format(lines=lines))
        run = subprocess.run(["rt", "try", "--test"], cwd=f"{top}/crates/machine_rows", capture_output=True, text=True)
        return run.returncode, run.stdout + run.stderr


def main():
    status, words = tried(WRITE + LEND)
    if status:
        print("with the write before the loan it was not taken:", *words.splitlines()[-5:], sep="\n")
        return 1
    status, words = tried(LEND + WRITE)
    if not status or "e0502" not in words.lower():
        print("A LENT GRANULE IS USED AFTER A WRITE:", *words.splitlines()[-5:], sep="\n")
        return 1
    print("a lent granule can't be used after the next write: E0502")
    return 0


if __name__ == "__main__":
    sys.exit(main())
