#!/usr/bin/env python3
"""bench/mutated_images.py [COUNT [SEED]] [--jobs N]: images that another hand changed, by the auditor and the machine.

COUNT images (1,000 by default, from SEED 1 on) are made of built ones: in each a few words of the text, relocations or
the entry are set anew, often to what nearly keeps the rules. Each is read by `cheric audit`. Where that answers `audit
yes` the image is run by `cheric exec` on an input of some bytes, and must never end by `illegal` or `break`. The last
line counts the images by what the auditor answered. It needs what ./cheric needs. It proves nothing and is no part of
the gate."""
import os
import random
import struct
import sys
import tempfile

from calls import ROOT, answer_of, each, parser, prepared

FILES = ("hi", "words", "function_pointers", "list", "structs", "capabilities")
STEPS = "200000"
# cjal c0,0; ecall; ebreak; addi x17,x0,2; cjalr c0,0(c1); csealentry c10,c10; auipcc c5,0; a word of zeros
WORDS = (0x0000006F, 0x00000073, 0x00100073, 0x00200893, 0x00008067, 0xFF15055B | 17 << 20, 0x00000297, 0)


def section(data, number):
    """The offset and size of a section."""
    offset, size = struct.unpack_from("<QQ", data, 288 + 64 * number + 24)
    return offset, size


def set_word(data, pick):
    offset, size = section(data, 1)
    at = offset + 4 * pick.randrange(size // 4)
    old, = struct.unpack_from("<I", data, at)
    struct.pack_into("<I", data, at, pick.choice((*WORDS, old ^ 1 << pick.randrange(32), pick.getrandbits(32))))


def set_relocation(data, pick):
    offset, size = section(data, 3)
    if size:
        at = offset + 8 * pick.randrange(size // 8)
        old, = struct.unpack_from("<Q", data, at)
        change = pick.choice((old + 16, old - 16, old ^ 1 << pick.randrange(64), old + 4, pick.getrandbits(40)))
        struct.pack_into("<Q", data, at, change % 2**64)


def set_entry(data, pick):
    offset, size = section(data, 1)
    base, = struct.unpack_from("<Q", data, 64 + 16)
    at = pick.randrange(size // 4 + 2)
    entry = base + 4 * at + pick.choice((0, 0, 0, 1, 2))
    struct.pack_into("<Q", data, 24, entry)
    image, _ = section(data, 5)
    struct.pack_into("<Q", data, image + 8, entry)


def mutated(built, seed):
    pick = random.Random(seed)
    data = bytearray(pick.choice(built))
    for _ in range(pick.choice((1, 1, 1, 2, 3))):
        pick.choice((set_word, set_word, set_word, set_relocation, set_entry))(data, pick)
    return data


def answered(cheric, built, seed):
    """What the auditor answers, and a fault where the machine does what it must not."""
    with tempfile.NamedTemporaryFile(suffix=".elf") as file:
        file.write(mutated(built, seed))
        file.flush()
        audit = answer_of([cheric, "audit", file.name])
        if audit.line != "audit yes":
            return audit.line.split()[0] + (" no" if audit.line.startswith("audit no") else ""), ""
        run = answer_of([cheric, "exec", file.name, "--steps", STEPS], b"to be or not to be\n")
    bad = run.status == 6 or run.line.startswith(("illegal", "break", "no answer"))
    return "audit yes", f"{seed}: {run.line}" if bad else ""


def main():
    words = parser(__doc__)
    words.add_argument("count", nargs="?", type=int, default=1000)
    words.add_argument("seed", nargs="?", type=int, default=1)
    words = words.parse_args()
    cheric = prepared(words.cheric)
    built = []
    with tempfile.TemporaryDirectory() as folder:
        for name in FILES:
            answer_of([cheric, "build", f"{ROOT}/examples/{name}.c", "--out", f"{folder}/{name}"])
            with open(os.path.join(folder, name), "rb") as file:
                built.append(file.read())
    counts, faults = {}, 0
    seeds = range(words.seed, words.seed + words.count)
    for line, fault in each(lambda seed: answered(cheric, built, seed), seeds, words.jobs):
        counts[line] = counts.get(line, 0) + 1
        if fault:
            faults += 1
            print(fault)
    told = ", ".join(f"{count} {line}" for line, count in sorted(counts.items()))
    print(f"{words.count} images: {told}; {faults} ended by illegal or break after a yes")
    return 1 if faults else 0


if __name__ == "__main__":
    sys.exit(main())
