#!/usr/bin/env python3
"""bench/front_against_gcc.py [COUNT [SEED]]: changes a few tokens in each of COUNT files (2000 by default) taken from
the table of cheric_rows, and compares whether the front end accepts the file with whether `gcc -std=c11
-pedantic-errors` does.

A file is accepted where `cheric run` runs it, or refuses it only by 141 or 150. The files that are answered otherwise
are printed by the code of the refusal or by gcc's error; each has to be a choice that docs/ states, as that an array of
unknown length at file scope is 132, or that `;` may stand alone at file scope. It needs what ./cheric needs, and gcc.
It proves nothing and is no part of the gate."""
import collections
import random
import re
import subprocess
import sys
import tempfile

from calls import ROOT, prepared
from front_rows import rows_of

CHERIC = f"{ROOT}/cheric"
TOKEN = re.compile(r"[A-Za-z_]\w*|\.?\d[\w.]*|'(?:[^'\\]|\\.)*'|\"(?:[^\"\\]|\\.)*\"|"
                   r"<<=|>>=|->|\+\+|--|<<|>>|<=|>=|==|!=|&&|\|\||[-+*/%&|^]=|\S")
POOL = """int char unsigned long short void _Bool const static extern typedef struct union enum * & - + ~ ! ( ) [ ] 0 1 7
300 2147483648 4294967295 x a p i sizeof , ; = == < ? : % << && return 0u 1l 'a' "ab" u g f main s c v q -> . ++ -- += /""".split()
# What is declared before a file.
BEFORE = """typedef unsigned long size_t, ptraddr_t, uintptr_t, uint64_t; typedef long ptrdiff_t, intptr_t, int64_t;
typedef signed char int8_t; typedef short int16_t; typedef int int32_t;
typedef unsigned char uint8_t; typedef unsigned short uint16_t; typedef unsigned int uint32_t;
int putchar(int); int getchar(void); void *malloc(size_t); void exit(int);
"""


def files():
    """The C files of the table."""
    return [file for file, _ in rows_of("front_tables")]


def changed(text):
    tokens = TOKEN.findall(text)
    for _ in range(random.choice([1, 1, 1, 2, 2, 3])):
        at = random.randrange(len(tokens))
        how = random.randrange(5)
        if how == 0 and len(tokens) > 1:
            del tokens[at]
        elif how == 1:
            tokens.insert(at, random.choice(POOL))
        elif how == 2:
            tokens[at] = random.choice(POOL)
        elif how == 3:
            other = random.randrange(len(tokens))
            tokens[at], tokens[other] = tokens[other], tokens[at]
        else:
            tokens.insert(at, random.choice(tokens))
    return " ".join(tokens)


def main():
    count = int(sys.argv[1]) if len(sys.argv) > 1 else 2000
    random.seed(int(sys.argv[2]) if len(sys.argv) > 2 else 1)
    seeds, differing = files(), collections.defaultdict(list)
    with tempfile.TemporaryDirectory() as folder:
        source, before = f"{folder}/a.c", f"{folder}/before.h"
        with open(before, "w", encoding="utf-8") as file:
            file.write(BEFORE)
        gcc = ["gcc", "-std=c11", "-fsyntax-only", "-funsigned-char", "-pedantic-errors", "-fno-builtin",
               "-Wno-pointer-sign", "-include", before, source]
        prepared()
        for _ in range(count):
            text = changed(random.choice(seeds))
            with open(source, "w", encoding="utf-8") as file:
                file.write(text)
            ours = subprocess.run([CHERIC, "run", source, "--steps", "1000"], stdin=subprocess.DEVNULL,
                                  stdout=subprocess.DEVNULL, stderr=subprocess.PIPE)
            line = ours.stderr.decode().strip().split("\n")[-1]
            refusal = re.match(r"refused (\d+)", line)
            accepts = not refusal or refusal[1] in ("141", "150")
            theirs = subprocess.run(gcc, stdout=subprocess.DEVNULL, stderr=subprocess.PIPE)
            if accepts != (theirs.returncode == 0):
                error = re.search(r"error: (.*)", theirs.stderr.decode())
                differing[f"cheric accepts; gcc: {error[1]}" if accepts and error
                          else f"gcc accepts; cheric: {line}"].append(text)
    print(f"{count - sum(map(len, differing.values()))} of {count} files are answered alike")
    for why, texts in sorted(differing.items()):
        print(f"{why} ({len(texts)})\n    {min(texts, key=len)}")


if __name__ == "__main__":
    main()
