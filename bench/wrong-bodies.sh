#!/usr/bin/env bash
# bench/wrong-bodies.sh [CRATE..]: tries the wrong bodies of crates/CRATE/wrong-bodies, which the gate does not try (by
# default those of every crate that has some). The prover must refuse each. It works on a copy of the repository, and
# takes minutes for each crate.
set -euo pipefail
top=$(cd "$(dirname "$0")/.." && pwd)
work=$(mktemp -d)
trap 'rm -rf "$work"' EXIT
cp -r "$top/crates" "$top/crates.txt" "$top/HANDLES" "$work/"
cd "$work"
git init -q .
names=("$@")
if [ ${#names[@]} = 0 ]; then
    for folder in crates/*/wrong-bodies; do names+=("$(basename "$(dirname "$folder")")"); done
fi
for name in "${names[@]}"; do
    if [ ! -d "crates/$name/wrong-bodies" ]; then
        echo "$name has no wrong-bodies" >&2
        exit 2
    fi
    mkdir -p "crates/$name/must-fail"
    cp "crates/$name/wrong-bodies/"*.edit "crates/$name/must-fail/"
    (cd "crates/$name" && rt check > /dev/null)
done
rt must-fail "${names[@]}"
