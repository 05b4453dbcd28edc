"""Calls of `./cheric` for the other scripts of this folder: what a call answers, and work spread over processors."""
import argparse
import os
import subprocess
from concurrent.futures import ThreadPoolExecutor

ROOT = os.path.dirname(os.path.dirname(os.path.abspath(__file__)))
SECONDS = 120


class Answer:
    """What one call gave: the bytes of its output, the last line of its standard error and its status."""

    def __init__(self, output, line, status):
        self.output, self.line, self.status = output, line, status

    def __eq__(self, other):
        return (self.output, self.line, self.status) == (other.output, other.line, other.status)

    def __str__(self):
        shown = repr(self.output if len(self.output) <= 60 else self.output[:57] + b"...")
        return f"{shown[1:]} ({len(self.output)} bytes), `{self.line}`, status {self.status}"


def answer_of(words, taken=b"", folder=None):
    """The answer of a command on an input; `no answer` where it takes longer than SECONDS."""
    try:
        run = subprocess.run(words, input=taken, capture_output=True, timeout=SECONDS, cwd=folder)
    except subprocess.TimeoutExpired as late:
        return Answer(late.stdout or b"", f"no answer in {SECONDS} seconds", None)
    lines = run.stderr.decode(errors="replace").splitlines()
    return Answer(run.stdout, lines[-1] if lines else "", run.returncode)


def parser(text):
    """A command line with the two options that these scripts share; `text` is the script's own description."""
    words = argparse.ArgumentParser(description=text, formatter_class=argparse.RawDescriptionHelpFormatter)
    words.add_argument("--jobs", type=int, default=1, help="calls at a time, 1 by default")
    words.add_argument("--cheric", metavar="COMMAND", default=f"{ROOT}/cheric",
                       help="the command, ./cheric of this repository by default")
    return words


def program_of(cheric):
    """The program that ./cheric calls, built without a proof where there is none yet; another command is one itself."""
    if os.path.abspath(cheric) != f"{ROOT}/cheric":
        return os.path.abspath(cheric)
    run = subprocess.run([f"{ROOT}/cheric", "--program"], stdin=subprocess.DEVNULL, stdout=subprocess.PIPE, check=False)
    if run.returncode:
        raise SystemExit("the command is not there")
    return run.stdout.decode().rstrip("\n")


def prepared(cheric=f"{ROOT}/cheric"):
    """The command, as a path that holds in every folder; what it calls is built."""
    program_of(cheric)
    return os.path.abspath(cheric)


def timed(cheric=f"{ROOT}/cheric"):
    """The command for what is timed: in place of ./cheric the program that it calls, as the search of that
    script for newer sources takes longer than a small file."""
    return program_of(cheric)


def each(work, items, jobs):
    """The results of `work` on the items, in their order, with so many at a time."""
    with ThreadPoolExecutor(max_workers=jobs) as pool:
        yield from pool.map(work, items)
