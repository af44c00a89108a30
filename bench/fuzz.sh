#!/usr/bin/env bash
# Changes stored texts by chance and reads each in every way (from a string at once and a byte a call, from characters, from items
# that may fail), beside another program, until the time is over. Keeps the smallest text of each kind of difference, and stops a
# run past a second a megabyte for each way.
# usage: bench/fuzz.sh SECONDS OTHER_PROGRAM [FOUND_FILE [SEED [PROGRAM]]]
#   OTHER_PROGRAM batch events WORDS..  reads a JSON string a line, and writes a line {"status": NUMBER, "out": TEXT} for each
#   PROGRAM                             the built granit_cases; without it, it is built first
set -eu
seconds="${1:?usage: bench/fuzz.sh SECONDS OTHER_PROGRAM [FOUND_FILE [SEED [PROGRAM]]]}"
other="${2:?usage: bench/fuzz.sh SECONDS OTHER_PROGRAM [FOUND_FILE [SEED [PROGRAM]]]}"
found="${3:-found.jsonl}"
seed="${4:-1}"
top="$(cd "$(dirname "${BASH_SOURCE[0]}")/.." && pwd)"
program="${5:-}"
if [ -z "$program" ]; then
    folder="$top/crates/granit_cases"
    (cd "$folder" && rt run </dev/null >/dev/null)
    program="$(find "$folder/out" -maxdepth 3 -type f -name granit_cases -perm -u+x | head -n 1)"
fi
exec python3 - "$seconds" "$other" "$found" "$seed" "$program" "$top/crates" <<'PYTHON'
import hashlib, json, random, re, resource, subprocess, sys, time

seconds, other, found, seed, program, crates = sys.argv[1:]
chance = random.Random(int(seed))
CHARACTERS = 'a \n-:?[]{},#"\'&*!|>%\t\r\\.\ufeff\0\x7f\x85é\u2028~0'
PIECES = ['- ', '? ', ': ', 'k: v\n', '[', ']', '{', '}', ', ', '\n', '\n ', '\n  ', '\n- ', '\n\n', '\t', ' \t', '\r\n', '# c\n', ' #', '"x"', '"x\n y"', '"\\n"',
          '"\\u00e9"', '"\\ud83d\\ude00"', '"a\\\n  b"', "'x'", "''", '&a ', '*a ', '!t ', '!!s ', '!<x> ', '!e!x ', '%c3%a9', '|\n', '>\n', '|-\n', '|+2\n',
          '\n---\n', '--- ', '...\n', '%YAML 1.2\n', '%TAG !e! tag:e,\n', '%X y\n', '<<: ', 'x' * 20]
SWITCHES = ['strict', 'no-directives', 'unresolved', 'anchors', 'comments']
LIMITS = ['max-comments', 'key-lookahead', 'flow-limit', 'block-limit', 'directive-bytes', 'directive-params']


def stored():
    """The texts of the stored cases."""
    texts = []
    for crate in ('granit_cases', 'granit_token_cases'):
        for line in open(f'{crates}/{crate}/stdin', encoding='utf-8'):
            if not line.startswith(('run\t', 'loads\t', 'recovery\t', 'tokens\t')):
                continue
            text = json.loads(line.rstrip('\n').split('\t')[-1])
            if text and len(text) < 20_000:
                texts.append(text)
    return texts


def option_words():
    words = [f'{name}={chance.choice(["on", "off"])}' for name in SWITCHES if chance.random() < 0.15]
    words += [f'{name}={chance.choice([0, 1, 2, 3, 5, 9, 100])}' for name in LIMITS if chance.random() < 0.1]
    return ' '.join(words) if chance.random() < 0.6 else ''


def window(text, size):
    """Some whole lines of a text."""
    if len(text) <= size:
        return text
    lines = text.splitlines(True)
    begin = chance.randrange(len(lines))
    return ''.join(lines[begin:begin + chance.randint(1, 12)])[:size]


def change_lines(text):
    lines = text.splitlines(True)
    if not lines:
        return text
    at, way = chance.randrange(len(lines)), chance.randrange(5)
    if way == 0:
        lines[at] = ' ' * chance.randint(1, 3) + lines[at]
    elif way == 1:
        lines[at] = lines[at][chance.randint(1, 3):]
    elif way == 2:
        lines.insert(at, chance.choice(lines))
    elif way == 3:
        del lines[at]
    else:
        to = chance.randrange(len(lines))
        lines[at], lines[to] = lines[to], lines[at]
    return ''.join(lines)


def changed(text, texts):
    begin = chance.randint(0, len(text))
    end = min(len(text), begin + chance.choice([1, 1, 2, 4, 8, 30]))
    way = chance.randrange(9)
    if way == 0:
        return text[:begin] + text[end:]
    if way == 1:
        return text[:begin] + chance.choice(CHARACTERS) + text[begin:]
    if way == 2:
        return text[:begin] + chance.choice(PIECES) + text[begin:]
    if way == 3:
        return text[:begin] + chance.choice(PIECES) + text[end:]
    if way == 4:
        return text[:begin] + text[begin:end] * 2 + text[end:]
    if way == 5:
        return text[:begin]
    if way == 6:
        return text[:begin] + window(chance.choice(texts), 60) + text[begin:]
    if way == 7 and chance.random() < 0.1:
        return text[:begin] + text[begin:end] * chance.choice([90, 100, 255, 256, 1030]) + text[end:]
    return change_lines(text)


def mutant(texts):
    text = window(chance.choice(texts), chance.choice([40, 100, 300, 1000]))
    for _ in range(chance.choice([1, 1, 2, 3, 5])):
        text = changed(text, texts)
    return text


def ours(words, texts):
    """A line for each text; `ended` where the program didn't end by itself, or took too long."""
    lines = ''.join(f'hostile\tevents {words}\t{json.dumps([text])}\n' for text in texts).encode()
    most = 3 + 4 * len(lines) // 1_000_000
    limit = lambda: resource.setrlimit(resource.RLIMIT_CPU, (most, most + 1))
    ran = subprocess.run([program], input=lines, stdout=subprocess.PIPE, stderr=subprocess.DEVNULL, preexec_fn=limit)
    said = ran.stdout.decode('utf-8', 'replace').split('\n')[:-1]
    if ran.returncode == 0 and len(said) == len(texts):
        return said
    if len(texts) == 1:
        return [f'ended {ran.returncode}']
    middle = len(texts) // 2
    return ours(words, texts[:middle]) + ours(words, texts[middle:])


def theirs(words, texts):
    lines = ''.join(json.dumps(text) + '\n' for text in texts).encode()
    ran = subprocess.run([other, 'batch', 'events', *words.split()], input=lines, stdout=subprocess.PIPE)
    return [line_of(json.loads(line)) for line in ran.stdout.decode().splitlines()]


def line_of(answer):
    out, status = answer['out'], answer['status']
    if out.count('\n') == 1:
        return f'status {status}: {out.rstrip()}'
    return f'status {status}: {out.count(chr(10))} lines, {hashlib.md5(out.encode()).hexdigest()}'


def is_named(text, left, right):
    """The two differences of faults that docs/DIFFERENCES.md names: a `-` behind keys, and a block scalar behind its header's comment."""
    a, b = (re.match(r'status 1: fault (\d+): .* at char (\d+) ', line) for line in (left, right))
    if not a or not b:
        return False
    if a[1] == '33' and b[1] == '33':
        return int(a[2]) < int(b[2]) and text[int(a[2])] == '-'
    return a[1] in ('54', '55', '76') and b[1] == '75' and re.search(r'[|>].*#', text) is not None


def differing(words, texts):
    """Each text that is answered in two ways, with both."""
    pairs = zip(texts, ours(words, texts), theirs(words, texts))
    return [(text, a, b) for text, a, b in pairs if a != b]


def shape(line):
    return re.sub(r'at char .*|\d+ lines, .*|0x\w+|\'.*\'', '', line)


def smallest(words, case):
    """A smaller text with a difference of that shape, as long as there is one."""
    kind, size = (shape(case[1]), shape(case[2])), max(1, len(case[0]) // 2)
    while True:
        text = case[0]
        tries = [text[:at] + text[at + size:] for at in range(0, len(text), max(1, size // 2))]
        left = [it for it in differing(words, tries[:4000]) if (shape(it[1]), shape(it[2])) == kind and not is_named(*it)]
        if left:
            case = min(left, key=lambda it: len(it[0]))
            size = min(size, max(1, len(case[0]) // 2))
        elif size == 1:
            return case
        else:
            size //= 2


def keep(kept, words, case):
    kind = (words, shape(case[1]), shape(case[2]))
    if kind in kept and len(kept[kind][0]) <= len(case[0]):
        return
    kept[kind] = smallest(words, case)
    with open(found, 'w', encoding='utf-8') as file:
        for (word, _, _), (text, a, b) in kept.items():
            file.write(json.dumps({'words': word, 'text': text, 'ours': a, 'theirs': b}) + '\n')


def main():
    texts, kept, counts, characters, named = stored(), {}, 0, 0, 0
    begun = told = time.monotonic()
    while time.monotonic() < begun + float(seconds):
        words = option_words()
        batch = [mutant(texts) for _ in range(1000)]
        for case in differing(words, batch):
            if is_named(*case):
                named += 1
            elif time.monotonic() < begun + float(seconds):
                keep(kept, words, case)
        counts, characters = counts + len(batch), characters + sum(map(len, batch))
        if time.monotonic() > told + 60:
            told = time.monotonic()
            print(f'{told - begun:.0f} s: {counts} texts, {characters} characters, {named} named differences, {len(kept)} others', flush=True)
    print(f'{counts} texts, {characters} characters, {named} named differences, {len(kept)} others')
    sys.exit(bool(kept))


main()
PYTHON
