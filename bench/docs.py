#!/usr/bin/env python3
"""bench/docs.py [--run] [--cheric FILE]: whether what README.md and docs/ name is there.

Each link leads to a file. Each name in the tables of definitions is a definition of the specs, a function, a type or a
field. What stands behind a promise of docs/promises.md is a crate, functions of it and clauses of their contracts. With
--run each program of docs/causes.md and docs/refusals.md that stands beside its line is run by `./cheric` and must end
by that line. It proves nothing and is no part of the gate."""
import glob
import os
import re
import sys
import tempfile

from calls import answer_of, parser, prepared

TOP = os.path.dirname(os.path.dirname(os.path.abspath(__file__)))
PAGES = ["README.md", *sorted(os.path.relpath(it, TOP) for it in glob.glob(f"{TOP}/docs/*.md"))]
WORDS = "fn|struct|enum|const|trait|type|mod|ensures|requires|record|data|module"
DEFINED = re.compile(rf"\b(?:{WORDS})\s+([A-Za-z_]\w*)")
NAMED = re.compile(r"\bpub\s+([A-Za-z_]\w*)\s*:", re.M)
BRANCH = re.compile(r"^\s+(?:pub )?([A-Za-z_][\w-]*)\s*(?::|\{|\(|,|;|=>)", re.M)


def text_of(path):
    with open(f"{TOP}/{path}", encoding="utf-8") as file:
        return file.read()


def sources(crate="*"):
    found = []
    for part in ("src", "specs", "proofs"):
        found += glob.glob(f"{TOP}/crates/{crate}/{part}/**/*.*", recursive=True)
    return [it for it in found if it.endswith((".rt", ".antt"))]


def names_in(files):
    found = {os.path.splitext(os.path.basename(it))[0] for it in files}
    for path in files:
        with open(path, encoding="utf-8") as file:
            text = file.read()
        found.update(DEFINED.findall(text), NAMED.findall(text), BRANCH.findall(text))
    return found


def link_faults(page, text):
    for target in re.findall(r"\]\(([^)#\s]+)(?:#[^)]*)?\)", text):
        if not target.startswith("http") and not os.path.exists(f"{TOP}/{os.path.dirname(page)}/{target}"):
            yield f"{page}: no file {target}"


def rows_of(text):
    """The cells of each row of the tables, without the rows of dashes."""
    for line in text.splitlines():
        if line.startswith("|") and not set(line) <= set("|- :"):
            yield [it.strip() for it in re.split(r"(?<!\\)\|", line)[1:-1]]


def words_of(cell):
    """The names in backticks, each cut at its dots."""
    for quoted in re.findall(r"`([^`]+)`", cell):
        for word in re.split(r"[.\s,]+|::", quoted):
            if re.fullmatch(r"[A-Za-z_]\w*", word):
                yield word


def definition_faults(page, text, known):
    for cells in rows_of(text):
        for word in words_of(cells[-1]):
            if word not in known and word not in ("antt", "rt"):
                yield f"{page}: no definition {word}"


def promise_faults(page, text, known):
    """Behind each promise stand its crates and functions, a colon, and the clauses, in italics."""
    crates = set(os.listdir(f"{TOP}/crates"))
    for behind in re.findall(r"\*(`[^*]+)\*", text):
        named, _, clauses = " ".join(behind.split()).partition(": ")
        words = list(words_of(named))
        own = set().union(*(names_in(sources(it)) for it in words if it in crates))
        if not own:
            yield f"{page}: no crate in {named}"
        for word in [*words, *words_of(clauses)]:
            if word not in own and word not in crates and word not in known:
                yield f"{page}: {named}: no {word}"


def told(page, text):
    """The programs that stand in a row beside the line by which they end."""
    for cells in rows_of(text):
        alone = [re.fullmatch(r"`([^`]*)`", it.replace("\\|", "|")) for it in cells[:2]]
        if all(alone) and alone[0][1].startswith(("trap ", "refused ")):
            yield alone[1][1], alone[0][1]
            continue
        lines = re.findall(r"`((?:trap|stack|exit|refused) [^`]*)`", " ".join(cells))
        files = re.findall(r"`([^`]*main *\([^`]*)`", " ".join(cells).replace("\\|", "|"))
        if len(files) == 1 and len(lines) >= 1:
            yield files[0], lines[-1] if cells[0].startswith("`exit") else lines[0] if len(lines) == 1 else lines[-1]


def not_found(text):
    """The programs of which the strict meaning finds nothing, each with the line by which `mean` ends."""
    section = text.partition("## What the strict meaning does not look for")[2].partition("\n## ")[0]
    for cells in rows_of(section):
        if program := re.fullmatch(r"`([^`]*\bmain\b[^`]*)`", cells[1]):
            yield program[1], cells[2].strip("`")


def line_of(cheric, mode, program):
    with tempfile.NamedTemporaryFile("w", suffix=".c") as file:
        file.write(program)
        file.flush()
        return answer_of([cheric, mode, file.name], b"").line


def run_faults(cheric):
    rows = [(page, "run", *row) for page in ("docs/causes.md", "docs/refusals.md") for row in told(page, text_of(page))]
    rows += [("docs/causes.md", "mean", *row) for row in not_found(text_of("docs/causes.md"))]
    for page, mode, program, line in rows:
        if (said := line_of(cheric, mode, program)) != line:
            yield f"{page}: {program} ends by {said}; the page says {line}"
    print(f"{len(rows)} programs run")


def main():
    words = parser(__doc__)
    words.add_argument("--run", action="store_true")
    words = words.parse_args()
    known = names_in(sources()) | set(os.listdir(f"{TOP}/crates"))
    faults = []
    for page in PAGES:
        faults += link_faults(page, text_of(page))
    for page in ("docs/typing-rules.md", "docs/meaning-rules.md"):
        faults += definition_faults(page, text_of(page), known)
    faults += promise_faults("docs/promises.md", text_of("docs/promises.md"), known)
    if words.run:
        faults += run_faults(prepared(words.cheric))
    print(*faults, sep="\n" if faults else "")
    print(f"{len(faults)} faults")
    return 1 if faults else 0


if __name__ == "__main__":
    sys.exit(main())
