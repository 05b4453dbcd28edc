#!/usr/bin/env python3
"""bench/pages.py [--check]: makes crates/README.md and docs/trust.md of the sources.

crates/README.md has the families of crates.txt in their order, and of each crate the first sentence of its head, its
lines and what it names directly. docs/trust.md has the files of definitions to which the contracts of `build` and `cheric`
lead by imports, in an order in which each stands behind what it needs. With --check nothing is written, and the
status says whether both are as they would be made."""
import argparse
import glob
import os
import re
import sys

TOP = os.path.dirname(os.path.dirname(os.path.abspath(__file__)))
IMPORT = re.compile(r"^\s*(?:pub )?(?:ghost )?use Rattle\.(\w+)\.specs\.([\w.]+)", re.M)
ROOTS = [("cheric_build", "src/lib.rt", "build"), ("cheric_top", "src/command.rt", "cheric")]


def text_of(path):
    with open(f"{TOP}/{path}", encoding="utf-8") as file:
        return file.read()


def families():
    """The families of crates.txt: the heading of each, with its crates and what they name directly."""
    found, heading = [], None
    for line in text_of("crates.txt").splitlines():
        if line.startswith("## "):
            found.append((line[3:].strip(), []))
        elif ":" in line and not line.startswith("#"):
            name, _, deps = line.partition(":")
            found[-1][1].append((name.split()[0], deps.split()))
    return found


def head_of(crate):
    """The first sentence of the head of a crate's root file."""
    at = f"crates/{crate}/src/"
    text = text_of(at + ("lib.rt" if os.path.exists(f"{TOP}/{at}lib.rt") else "main.rt"))
    lines = []
    for line in text.splitlines():
        if not line.startswith("//!") or not line[3:].strip():
            break
        lines.append(line[3:].strip())
    return " ".join(lines)


def lines_of(crate, part):
    files = glob.glob(f"{TOP}/crates/{crate}/{part}/**/*.*", recursive=True)
    count = 0
    for path in files:
        if path.endswith((".rt", ".antt")):
            with open(path, "rb") as file:
                count += file.read().count(b"\n")
    return count


def crates_page():
    every = families()
    names = {name for _, crates in every for name, _ in crates}
    out = [
        "# The crates",
        "",
        "Made by `bench/pages.py` of `crates.txt` and the heads of the crates; not written by hand. The families stand in",
        "the order in which the data goes from a C file to the end of its run, and in a family the lower crates first.",
        "Lines are those of sources, definitions and proofs. [Architecture](../docs/architecture.md) has the way of the",
        "data, [trust](../docs/trust.md) the definitions that the promise of `build` rests on.",
    ]
    for heading, crates in every:
        out += ["", f"## {heading}", "", "| Crate | What | Lines | Names |", "|---|---|---|---|"]
        for name, deps in crates:
            count = " + ".join(f"{lines_of(name, part):,}" for part in ("src", "specs", "proofs"))
            own = ", ".join(it for it in deps if it in names)
            out.append(f"| `{name}` | {head_of(name)} | {count} | {own} |")
    out += ["", "## Wrong bodies that the gate tries", "", "| Crate | What a body does |", "|---|---|"]
    for _, crates in every:
        for name, _ in crates:
            if bodies := wrong_bodies(name):
                out.append(f"| `{name}` | {'; '.join(bodies)} |")
    return "\n".join(out) + "\n"


def wrong_bodies(crate):
    """The names of the wrong bodies of must-fail/, as words."""
    found = glob.glob(f"{TOP}/crates/{crate}/must-fail/*.edit")
    return sorted(os.path.basename(it)[:-5].replace("_", " ") for it in found)


class Definitions:
    """The files of definitions, and what each imports."""

    def __init__(self):
        self.kept = {}

    def file_of(self, crate, path):
        """The file that an import names: one of specs/, or the source of a type that a contract speaks of."""
        parts = path.split(".")
        if parts[0] == "declared":
            for n in range(len(parts), 1, -1):
                at = f"crates/{crate}/src/" + "/".join(parts[1:n]) + ".rt"
                if os.path.exists(f"{TOP}/{at}"):
                    return at
            return self.root_of(crate)
        for n in range(len(parts), 0, -1):
            at = f"crates/{crate}/specs/" + "/".join(parts[:n]) + ".antt"
            if os.path.exists(f"{TOP}/{at}"):
                return at
        return None

    def root_of(self, crate):
        return f"crates/{crate}/src/lib.rt"

    def imports(self, at, text=None):
        found = []
        for crate, path in IMPORT.findall(text if text is not None else text_of(at)):
            if os.path.isdir(f"{TOP}/crates/{crate}"):
                named = self.file_of(crate, path)
                if named and named != at and named not in found:
                    found.append(named)
        return found

    def below(self, at, order):
        """Puts what a file needs into the order, and then the file; a stack of its own, since chains are long."""
        work = [(at, iter(self.wanted(at)))]
        seen = set(order) | {at}
        while work:
            now, rest = work[-1]
            nxt = next((it for it in rest if it not in seen), None)
            if nxt is None:
                work.pop()
                order.append(now)
            else:
                seen.add(nxt)
                work.append((nxt, iter(self.wanted(nxt))))

    def wanted(self, at):
        # of a source only its types count, which import nothing that a definition needs
        return [] if at.endswith(".rt") else self.imports(at)


def contract_of(text, name):
    """The `ghost use` lines of a source, and those of them that the contract of the function names."""
    start = re.search(rf"^pub fn {name}\b", text, re.M).start()
    clause = text[start:text.index("\n{", start)]
    wanted = []
    for line in re.findall(r"^ghost use .*;$", text, re.M):
        names = re.findall(r"[\w◌+≡]+", line.rsplit(".", 1)[1])
        if any(re.search(rf"\b{re.escape(it)}\b", clause) for it in names if re.match(r"\w", it)):
            wanted.append(line)
    return "\n".join(wanted)


def source_with(crate, name):
    for path in sorted(glob.glob(f"{TOP}/crates/{crate}/src/**/*.rt", recursive=True)):
        at = os.path.relpath(path, TOP)
        if re.search(rf"^pub fn {name}\b", text_of(at), re.M):
            return at
    raise SystemExit(f"no function {name} in {crate}")


def trust_page():
    all_files, order = Definitions(), []
    for crate, _, name in ROOTS:
        at = source_with(crate, name)
        for wanted in all_files.imports(at, contract_of(text_of(at), name)):
            if wanted not in order:
                all_files.below(wanted, order)
    rank = {name: k for k, name in enumerate(n for _, crates in families() for n, _ in crates)}
    by_crate = {}
    for at in order:
        by_crate.setdefault(at.split("/")[1], []).append(at)
    count = {at: text_of(at).count("\n") for at in order}
    specs = [at for at in order if at.endswith(".antt")]
    out = [
        "# What the promise rests on",
        "",
        "Made by `bench/pages.py`; not written by hand. The definitions that the contracts of `build` (`cheric_build`) and",
        "of `cheric` (`cheric_top`) name lead to these files by their imports, and to the types of these sources. Each file",
        "stands behind those that it needs. The script follows the imports of definitions alone: to be read beside them are",
        "the two contracts, the clauses of the traits of the outside (`ck_base/src/outside.rt`), and the models that types",
        "have in their sources. Trust is asked besides for what README names: the kit, the system and the adapters.",
        "",
        f"{len(specs)} files of definitions with {sum(count[at] for at in specs):,} lines, and {len(order) - len(specs)}",
        f"sources, of which only the types count, with {sum(count[at] for at in order if at not in specs):,}.",
        "",
        "| Crate | Files, with their lines |",
        "|---|---|",
    ]
    for crate in sorted(by_crate, key=rank.get):
        files = ", ".join(f"[{'/'.join(at.split('/')[2:])}](../{at}) {count[at]}" for at in by_crate[crate])
        out.append(f"| `{crate}` | {files} |")
    return "\n".join(out) + "\n"


def main():
    asked = argparse.ArgumentParser(description=__doc__.split("\n", maxsplit=1)[0])
    asked.add_argument("--check", action="store_true")
    check = asked.parse_args().check
    stale = 0
    for path, text in (("crates/README.md", crates_page()), ("docs/trust.md", trust_page())):
        if check:
            if not os.path.exists(f"{TOP}/{path}") or text_of(path) != text:
                print(f"{path} is not as bench/pages.py makes it")
                stale += 1
        else:
            with open(f"{TOP}/{path}", "w", encoding="utf-8") as file:
                file.write(text)
    sys.exit(1 if stale else 0)


if __name__ == "__main__":
    main()
