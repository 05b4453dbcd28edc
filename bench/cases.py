#!/usr/bin/env python3
"""bench/cases.py FOLDER [--jobs N] [--only WORD] [--mean]: compares the answers of `./cheric` with stated ones.

FOLDER has `cases/NAME` for each program and a list `answers.json` of what is known of it: `name`; `run`, the output as
numbers of bytes, the line and the status of a run, where these depend on no address; `mean`, likewise for the strict
meaning; and `count`, the last word of the built image's own part where that has thirteen. The input of a program is its
own text.

Each program is run by `run`, and by `build` and then `exec`. The last must answer as `run` does; both must answer what
is stated. Where nothing is stated of a run, it must still be built, begin with the output of the strict meaning, and
end in one of the ways in which a built program ends. With --mean the mode `mean` is compared too. The programs that are
answered otherwise are printed, and the last line counts them. It proves nothing and is no part of the gate."""
import json
import os
import struct
import sys
import tempfile

from calls import Answer, answer_of, each, parser, prepared

TURNS = 60_000
# A run of a built program ends by these: exit, trap, stack, the limit of steps.
ENDINGS = (0, 1, 2, 3, 4)


def stated(answer):
    return Answer(bytes(answer["out"]), answer["line"], answer["status"])


def count_of(elf):
    """The thirteenth word of the section `.ck_image`, or None where the image has twelve."""
    headers = [struct.unpack_from("<IIQQQQ", elf, 288 + 64 * k) for k in range(7)]
    _, _, _, _, offset, size = headers[5]
    return struct.unpack_from("<Q", elf, offset + 96)[0] if size >= 104 else None


class Cases:
    def __init__(self, words):
        self.folder, self.cheric, self.mean = words.folder, prepared(words.cheric), words.mean

    def faults(self, case):
        """What is wrong with the answers on one program, a line each, and the answer of `run`."""
        source = os.path.abspath(f"{self.folder}/cases/{case['name']}")
        with open(source, "rb") as file:
            text = file.read()
        run = answer_of([self.cheric, "run", source], text)
        faults = []
        if "run" in case:
            want = stated(case["run"])
            if run != want:
                faults.append(f"run: {run}; stated {want}")
        elif run.status not in ENDINGS or not run.output.startswith(bytes(case["mean"]["out"])):
            faults.append(f"run: {run}; stated that it is built and begins like {stated(case['mean'])}")
        faults += self.build_faults(case, source, text, run)
        if self.mean:
            mean = answer_of([self.cheric, "mean", source, "--turns", str(TURNS)], text)
            if mean != stated(case["mean"]):
                faults.append(f"mean: {mean}; stated {stated(case['mean'])}")
        return case["name"], faults, run

    def build_faults(self, case, source, text, run):
        with tempfile.TemporaryDirectory() as work:
            elf = f"{work}/built.elf"
            built = answer_of([self.cheric, "build", source, "--out", elf])
            if not os.path.exists(elf):
                return [] if run.status == 10 and built.line == run.line else [f"build: {built}"]
            with open(elf, "rb") as file:
                data = file.read()
            right = built == Answer(b"", f"built {len(data)}", 0)
            faults = [] if right else [f"build: {built}; the file has {len(data)} bytes"]
            done = answer_of([self.cheric, "exec", elf], text)
            if done != run:
                faults.append(f"exec: {done}; run {run}")
            count = count_of(data)
            if count is not None and count != case.get("count", count):
                faults.append(f"count: {count}; stated {case['count']}")
            return faults


def main():
    words = parser(__doc__)
    words.add_argument("folder", metavar="FOLDER")
    words.add_argument("--only", default="", metavar="WORD", help="only programs whose name or kind has this word")
    words.add_argument("--mean", action="store_true", help="the mode `mean` too")
    words = words.parse_args()
    with open(f"{words.folder}/answers.json", encoding="utf-8") as file:
        known = [case for case in json.load(file) if words.only in case["name"] or words.only == case.get("kind")]
    cases = Cases(words)
    wrong = refused = 0
    for name, faults, run in each(cases.faults, known, words.jobs):
        if run.line.startswith("refused 150"):
            refused += 1
            continue
        wrong += 1 if faults else 0
        for fault in faults:
            print(f"{name}: {fault}", flush=True)
    print(f"{len(known)} programs, {refused} of them not built yet (150), {wrong} answered otherwise")
    return 1 if wrong else 0


if __name__ == "__main__":
    sys.exit(main())
