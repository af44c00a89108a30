#!/usr/bin/env bash
# Instructions a byte, which don't depend on the machine's load, beside another program's (valgrind's callgrind).
# usage: bench/instructions.sh PROGRAM OTHER MEGABYTES WORDS..     e.g. ./granit other 1 events
# In the environment: FORMS, of bench/texts.py (block flow pretty escaped); OTHER_WORDS, where the other program has other words;
# LESS, a word of PROGRAM and OTHER_LESS, one of OTHER, whose instructions are taken off, as those of a program that only reads the text.
set -eu
[ $# -ge 3 ] || { sed -n '3p' "${BASH_SOURCE[0]}"; exit 2; }
program="$1" other="$2" megabytes="$3"
shift 3
read -r -a other_words <<<"${OTHER_WORDS-$*}"
bench="$(cd "$(dirname "${BASH_SOURCE[0]}")" && pwd)"
work="$(mktemp -d)"
trap 'rm -rf "$work"' EXIT
# The instructions of a command over the text.
instructions() {
    valgrind --tool=callgrind --callgrind-out-file="$work/calls" "$@" <"$work/text" 2>&1 >/dev/null |
        sed -n 's/.*Collected : \([0-9]*\).*/\1/p'
}
for form in ${FORMS:-block flow pretty escaped}; do
    python3 "$bench/texts.py" "$form" "$megabytes" >"$work/text"
    ours="$(instructions "$program" "$@")"
    theirs="$(instructions "$other" "${other_words[@]}")"
    if [ -n "${LESS:-}" ]; then ours=$((ours - $(instructions "$program" "$LESS"))); fi
    if [ -n "${OTHER_LESS:-}" ]; then theirs=$((theirs - $(instructions "$other" "$OTHER_LESS"))); fi
    awk -v form="$form" -v ours="$ours" -v theirs="$theirs" -v size="$(stat -c %s "$work/text")" \
        'BEGIN { printf "%-14s %8.1f beside %8.1f instructions a byte: %.2f\n", form, ours / size, theirs / size, ours / theirs }'
done
