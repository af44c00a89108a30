#!/usr/bin/env bash
# Speed and memory beside another program that reads the same words: on block mappings with comments, on flow collections on one line,
# on flow collections over many lines, and on escapes.
# usage: bench/compare.sh OTHER_PROGRAM [MEGABYTES]
set -eu
other="${1:?usage: bench/compare.sh OTHER_PROGRAM [MEGABYTES]}"
megabytes="${2:-5}"
top="$(cd "$(dirname "${BASH_SOURCE[0]}")/.." && pwd)"
work="$(mktemp -d)"
trap 'rm -rf "$work"' EXIT
"$top/granit" events </dev/null >/dev/null
measure() {
    local name="$1" best="" peak=0 seconds kilobytes
    shift
    for _ in 1 2 3 4 5; do
        python3 - "$work/text" "$work/out" "$work/figures" "$@" <<'PYTHON'
import os, resource, subprocess, sys, time
text, out, figures, command = sys.argv[1], sys.argv[2], sys.argv[3], sys.argv[4:]
begin = time.monotonic()
with open(text, 'rb') as source, open(out, 'wb') as sink:
    status = subprocess.run(command, stdin=source, stdout=sink).returncode
seconds = time.monotonic() - begin
peak = resource.getrusage(resource.RUSAGE_CHILDREN).ru_maxrss
open(figures, 'w').write('%.3f %d\n' % (seconds, peak))
sys.exit(status)
PYTHON
        read -r seconds kilobytes <"$work/figures"
        if [ -z "$best" ] || awk "BEGIN { exit !($seconds < $best) }"; then best="$seconds"; fi
        if [ "$kilobytes" -gt "$peak" ]; then peak="$kilobytes"; fi
    done
    cp "$work/out" "$work/$name.out"
    awk -v name="$name" -v best="$best" -v peak="$peak" -v size="$(stat -c %s "$work/text")" \
        'BEGIN { printf "%s: %.3f s (best of 5), peak %.1f MB, %.1f bytes an input byte\n", name, best, peak / 1024, peak * 1024 / size }'
}
for form in block flow pretty escaped; do
    python3 "$top/bench/texts.py" "$form" "$megabytes" >"$work/text"
    echo "$form: $(stat -c %s "$work/text") bytes"
    measure ours "$top/granit" events
    measure other "$other" events
    if cmp -s "$work/ours.out" "$work/other.out"; then echo "the outputs are the same"; else echo "the outputs differ"; exit 1; fi
done
