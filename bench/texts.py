#!/usr/bin/env python3
"""texts.py FORM MEGABYTES: a YAML text of that form on standard output, always the same one.

block    block mappings with comments        flow    flow collections on one line
pretty   flow collections over many lines    escaped double-quoted scalars with escapes
and texts of one lexeme: plain-lines, plain-line, double-lines, single-lines, double-line, double-escapes, single-quotes, comment
"""
import sys

FORMS = {
    'block': '- name: service-%d   # number %d\n  ports:\n    - 80:%d\n    - "443"\n  labels:\n'
             '    tier: backend — of the shop\n    owner: team %d\n',
    'flow': ' {"name": "service-%d", "ports": [%d, %d], "labels": {"tier": "backend — of the shop", "owner": "team %d"}},',
    'pretty': '  {\n    "name": "service-%d",\n    "ports": [\n      %d,\n      %d\n    ],\n'
              '    "labels": {\n      "owner": "team %d"\n    }\n  },\n',
    'escaped': '- "line\\n%d\\t\\"quoted\\""\n- "80\\/%d \\\\\\\\%d\\_\\N"\n- "\\U0001F600 team %d"\n',
}


LINE = 'some words of one line of text, which goes on'

# What a text of one lexeme begins with, what it repeats, and what it ends with.
LEXEMES = {
    'plain-lines': ('', LINE + '\n', 'end\n'),
    'plain-line': ('', LINE + ' ', 'end\n'),
    'double-lines': ('"', LINE + '\n', '"\n'),
    'single-lines': ("'", LINE + '\n', "'\n"),
    'double-line': ('"', LINE + ' ', '"\n'),
    'double-escapes': ('"', LINE + '\\n\\t\\u00e9 ', '"\n'),
    'single-quotes': ("'", LINE + " ''word'' ", "'\n"),
    'comment': ('#', LINE + ' ', '\n'),
}


def text_of(form, size):
    """Whole entries of a form, until they have so many bytes."""
    if form in LEXEMES:
        head, unit, tail = LEXEMES[form]
        return head + unit * (size // len(unit)) + tail
    entries, length, number = [], 0, 0
    while length < size:
        number += 1
        entry = FORMS[form] % (number, number, number, number % 7)
        entries.append(entry)
        length += len(entry.encode())
    text = ''.join(entries)
    return '[' + text + ']\n' if form in ('flow', 'pretty') else text


if __name__ == '__main__':
    if len(sys.argv) != 3 or sys.argv[1] not in {**FORMS, **LEXEMES}:
        sys.exit(__doc__)
    sys.stdout.write(text_of(sys.argv[1], int(float(sys.argv[2]) * 1_000_000)))
