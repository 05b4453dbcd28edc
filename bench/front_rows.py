#!/usr/bin/env python3
"""bench/front_rows.py: the front end by `./cheric` on the files of the tables in crates/cheric_rows, each worked out by
hand from the rules.

A file is `typed` where `cheric build` builds it; else the code and the place have to be those of the row. The gate runs
the same rows as tests, over the front end alone. It needs what ./cheric needs. It proves nothing and is no part of the
gate."""
import ast
import re
import subprocess
import sys
import tempfile

from calls import ROOT, prepared

TABLES = ("front_tables", "declared_files", "initialised_files", "typed_files", "constant_files")
# A table: a string of rows. A row is the answer, `: ` and a remark, and the file from the next line on, or a remark.
# GOES_ON is where a line is broken.
TABLE = re.compile(r'^pub\(super\) const \w+: &str = "((?:[^"\\]|\\.)*)";$', re.M | re.S)
GOES_ON = re.compile(r"\\\n\s*")


def rows_of(table):
    """The files of a table, with what they are answered."""
    rows = []
    with open(f"{ROOT}/crates/cheric_rows/src/{table}.rt", encoding="utf-8") as it:
        for text in TABLE.findall(GOES_ON.sub("", it.read())):
            for row in ast.literal_eval(f'"""{text}"""').split("\n\n"):
                head, _, file = row.partition("\n")
                if not head.startswith("//"):
                    rows.append((file, head.split(": ")[0]))
    return rows


def answer(folder, text):
    """Returns `typed`, or the code and the place of the refusal."""
    file = f"{folder}/file.c"
    with open(file, "wb") as it:
        it.write(text.encode())
    line = subprocess.run([f"{ROOT}/cheric", "build", file], capture_output=True, text=True).stderr.splitlines()[-1]
    return "typed" if line.startswith("built ") else line.removeprefix("refused ")


def is_as_wanted(got, want):
    return got == want or want == "120" and got.startswith("120 ")


def main():
    prepared()
    count = wrong = 0
    with tempfile.TemporaryDirectory() as folder:
        for table in TABLES:
            for text, want in rows_of(table):
                got, count = answer(folder, text), count + 1
                if not is_as_wanted(got, want):
                    wrong += 1
                    print(f"{table}: {text}\n  wanted {want}\n  got {got}")
    print(f"{count} files, {wrong} answered otherwise")
    return wrong > 0


if __name__ == "__main__":
    sys.exit(main())
