#!/usr/bin/env bash
# Canonical block text of generated trees: the instructions of the program at three sizes, each twice the last, which
# grow as the text does, and then seconds and memory for a text of a million nodes.
# usage: bench/layout.sh [NODES]
set -eu
nodes="${1:-1000000}"
top="$(cd "$(dirname "${BASH_SOURCE[0]}")/.." && pwd)"
work="$(mktemp -d)"
trap 'rm -rf "$work"' EXIT
# Writes documents until they have so many nodes, and says how many nodes and bytes there are.
write_text() {
    python3 - "$1" "$work/text" <<'PYTHON'
import sys
state, anchors, nodes = 32, 0, 0
def draw(bound):
    global state
    state = (state * 1103515245 + 12345) % 2147483648
    return state // 65536 % bound
def letters():
    return ''.join(chr(97 + draw(26)) for _ in range(draw(8)))
def node(levels, column):
    """The line that a node begins on, behind its indicator, and the lines below."""
    global anchors, nodes
    nodes += 1
    begins, properties = draw(16), ''
    if begins == 0 and anchors > 0:
        return ' *n%d\n' % (draw(anchors) + 1)
    if begins == 1:
        anchors += 1
        properties = ' &n%d' % anchors
    if begins == 2:
        properties = ' !<t>'
    shape = draw(8)
    if levels == 0 or shape < 4:
        return '%s "%s"\n' % (properties, letters())
    count, indent, lines = draw(4), ' ' * column, []
    if count == 0:
        return '%s %s\n' % (properties, '[]' if shape < 6 else '{}')
    for _ in range(count):
        if shape < 6:
            lines.append(indent + '-' + node(levels - 1, column + 2))
        else:
            lines.append(indent + '?' + node(levels - 1, column + 2))
            lines.append(indent + ':' + node(levels - 1, column + 2))
    return properties + '\n' + ''.join(lines)
wanted, length = int(sys.argv[1]), 0
with open(sys.argv[2], 'w') as text:
    while nodes < wanted:
        anchors = 0
        document = '---' + node(6, 0)
        length += len(document)
        text.write(document)
print('%d nodes, %d bytes' % (nodes, length))
PYTHON
}
# The program itself, so that no launcher is measured.
"$top/granit" events </dev/null >/dev/null
program="$(find "$top/crates/granit/out" -maxdepth 3 -type f -name granit -perm -u+x | head -n 1)"
if command -v valgrind >/dev/null; then
    for size in 5000 10000 20000; do
        write_text "$size" >"$work/size"
        valgrind --tool=callgrind --callgrind-out-file=/dev/null "$program" events \
            <"$work/text" 2>"$work/counted" >/dev/null
        instructions="$(sed -n 's/.*Collected : //p' "$work/counted")"
        echo "$(cat "$work/size"): $instructions instructions, $((instructions / $(stat -c %s "$work/text"))) a byte"
    done
fi
write_text "$nodes"
python3 - "$work/text" "$program" <<'PYTHON'
import resource, subprocess, sys, time
begin = time.monotonic()
with open(sys.argv[1], 'rb') as text:
    run = subprocess.run([sys.argv[2], 'events'], stdin=text, stdout=subprocess.PIPE)
seconds = time.monotonic() - begin
peak = resource.getrusage(resource.RUSAGE_CHILDREN).ru_maxrss
print('status %d, %d events, %.2f s, peak %.0f MB' % (run.returncode, run.stdout.count(b'\n'), seconds, peak / 1024))
PYTHON
