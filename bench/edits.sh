#!/usr/bin/env bash
# Tries the edits of bench/edits, which the prover must refuse as it must those of crates/*/must-fail: those that say most stand in
# the gate, since an edit costs what its crate costs to load; the others stand here.
# usage: bench/edits.sh [--applies] [CRATE..]
#   --applies   only looks whether each edit can be applied: its old text stands exactly once
set -eu
top="$(cd "$(dirname "${BASH_SOURCE[0]}")/.." && pwd)"
if [ "${1:-}" = --applies ]; then
    exec python3 - "$top" <<'PYTHON'
import pathlib, sys

top = pathlib.Path(sys.argv[1])
wrong = 0
for edit in sorted(top.glob('bench/edits/*/*.edit')):
    crate, path, count = edit.parent.name, None, 0
    for line in edit.read_text(encoding='utf-8').split('\n'):
        if line.startswith('file: '):
            path = top / 'crates' / crate / line[6:].strip()
        elif line.startswith('old: '):
            count += 1
            if path is None or not path.is_file() or path.read_text(encoding='utf-8').count(line[5:]) != 1:
                wrong += 1
                print(f'{edit.relative_to(top)} cannot be applied: {line[5:]}')
    if not count:
        wrong += 1
        print(f'{edit.relative_to(top)} changes nothing')
sys.exit(bool(wrong))
PYTHON
fi
room="$(mktemp -d)"
trap 'rm -rf "$room"' EXIT
cp -r "$top/crates" "$top/crates.txt" "$top/HANDLES" "$room"
[ $# -gt 0 ] || set -- $(cd "$top/bench/edits" && ls)
for crate in "$@"; do
    mkdir -p "$room/crates/$crate/must-fail"
    cp "$top/bench/edits/$crate"/*.edit "$room/crates/$crate/must-fail/"
done
cd "$room"
git init -q .
rt must-fail "$@"
