#!/usr/bin/env python3
"""shapes.py PROGRAM WORDS..: how the instructions (valgrind's callgrind) or, without valgrind, the time of a program grow on
texts that repeat one form, N and then 8 times N of it. Prints a line a form, with the memory that the larger text takes at the most,
and at the end the forms that grow faster than the text.

The program reads the text on standard input; e.g. shapes.py ./granit events   or   shapes.py ./granit events comments=off
With FORMS=word,.. in the environment only forms whose names hold one of the words are tried; N=count sets N (default 2000).
"""
import os
import re
import shutil
import subprocess
import sys
import tempfile
import time


def repeated(head, unit, tail=''):
    """A text that repeats a unit; `@` in it stands for the number of the repetition."""
    if '@' in unit:
        return lambda count: head + ''.join(unit.replace('@', str(i)) for i in range(count)) + tail
    return lambda count: head + unit * count + tail


def nested(opening, closing, most):
    """Opening and closing parts round nothing, many times as deep as `most`."""
    return lambda count: ('- ' + opening * most + closing * most + '\n') * (count // most + 1)


FORMS = {
    'plain word': repeated('', 'a', '\n'),
    'plain words': repeated('', 'ab ', 'c\n'),
    'plain lines': repeated('', 'ab\n'),
    'plain lines with blanks': repeated('', 'ab  \n  '),
    'plain blank lines': repeated('a', '\n', 'b\n'),
    'plain with signs inside': repeated('a', ':b#c-d', '\n'),
    'plain of two bytes': repeated('', 'é', '\n'),
    'plain of four bytes': repeated('', '\U0001F600', '\n'),
    'plain next lines': repeated('', 'a\u0085', '\n'),
    'blank lines': repeated('', '\n', 'a\n'),
    'blanks': repeated('', ' ', 'a\n'),
    'blanks behind': repeated('a', ' ', '\n'),
    'tabs': repeated('a:', '\t', 'b\n'),
    'returns': repeated('', '\r', 'a\n'),
    'returns and feeds': repeated('', 'a\r\n'),
    'byte-order marks': repeated('', '\ufeff', 'a\n'),
    'double quotes': repeated('"', 'a', '"\n'),
    'double quotes, lines': repeated('"', 'ab\n', '"\n'),
    'double quotes, blank lines': repeated('"a', '\n', '"\n'),
    'double quotes, blanks': repeated('"', ' ', '"\n'),
    'double quotes, letters': repeated('"', '\\n', '"\n'),
    'double quotes, numbers': repeated('"', '\\x41', '"\n'),
    'double quotes, halves': repeated('"', '\\ud83d\\ude00', '"\n'),
    'double quotes, escaped breaks': repeated('"', 'a\\\n', '"\n'),
    'double quotes, unclosed': repeated('"', 'a ', '\n'),
    'single quotes': repeated("'", 'a', "'\n"),
    'single quotes, doubled': repeated("'", "''", "'\n"),
    'single quotes, lines': repeated("'", 'ab\n', "'\n"),
    'literal lines': repeated('|\n', ' ab\n'),
    'literal, one line': repeated('|\n ', 'a', '\n'),
    'literal, blank lines kept': repeated('|+\n a\n', '\n'),
    'literal, blank lines first': repeated('|\n', '\n', ' a\n'),
    'literal, deeper lines': repeated('|\n', ' a\n   b\n'),
    'folded lines': repeated('>\n', ' ab\n'),
    'folded, deeper lines': repeated('>\n', ' a\n   b\n'),
    'folded, blank lines': repeated('>\n', ' a\n\n'),
    'comment': repeated('#', 'a', '\na\n'),
    'comments behind entries': repeated('', '- a # b\n'),
    'comments between entries': repeated('', '- a\n# b\n'),
    'comments in brackets': repeated('[', 'a, # b\n', ']\n'),
    'sequence': repeated('', '- a\n'),
    'sequence of nothing': repeated('', '-\n'),
    'sequence in sequences': repeated('', '- - - a\n'),
    'sequence, deep': nested('- ', '', 200),
    'mapping': repeated('', 'k@: v\n'),
    'mapping of nothing': repeated('', 'k@:\n'),
    'mapping with questions': repeated('', '? k@\n: v\n'),
    'mapping of sequences': repeated('', 'k@:\n- v\n'),
    'mapping in a sequence': repeated('', '- k: v\n  l: w\n'),
    'quoted keys': repeated('', '"k@": v\n'),
    'key too long': repeated('', 'a', ': b\n'),
    'key near the limit': repeated('', 'k' * 900 + '@: v\n'),
    'columns come and go': repeated('', 'k@:\n  l:\n    m: v\n'),
    'flow sequence': repeated('[', 'a, ', ']\n'),
    'flow sequence, lines': repeated('[', 'a,\n ', ']\n'),
    'flow sequence of pairs': repeated('[', 'a: b, ', ']\n'),
    'flow sequence of quoted pairs': repeated('[', '"a":b, ', ']\n'),
    'flow mapping': repeated('{', 'k@: v, ', '}\n'),
    'flow mapping of keys': repeated('{', 'k@, ', '}\n'),
    'flow mapping with questions': repeated('{', '? k@ : v, ', '}\n'),
    'flow of nothing': repeated('', '- []\n- {}\n'),
    'flow, deep': nested('[', ']', 100),
    'flow, unclosed': repeated('', '- [a\n'),
    'brackets': repeated('', '['),
    'braces': repeated('', '{a: '),
    'documents': repeated('', '--- a\n'),
    'documents of nothing': repeated('', '---\n'),
    'documents with ends': repeated('', 'a\n...\n'),
    'document ends': repeated('', '...\n'),
    'version directives': repeated('', '%YAML 1.2\n--- a\n...\n'),
    'tag directives': repeated('', '%TAG !e@! tag:e,\n', '--- a\n'),
    'other directives': repeated('', '%F a b\n', '--- a\n'),
    'anchors': repeated('', '- &a@ b\n'),
    'anchors of one name': repeated('', '- &a b\n'),
    'aliases': repeated('- &a b\n', '- *a\n'),
    'aliases of many': repeated('', '- &a@ b\n- *a@\n'),
    'long name': repeated('&', 'a', ' b\n'),
    'tags': repeated('', '- !a b\n'),
    'verbatim tags': repeated('', '- !<tag:a> b\n'),
    'tag with escapes': repeated('!', '%41', ' b\n'),
    'long tag': repeated('!', 'a', ' b\n'),
    'properties on lines': repeated('', '- !!str\n  &a\n  b\n'),
}


def cost(command, text):
    """Instructions of a command over a text, or thousandths of a second where there is no valgrind."""
    if shutil.which('valgrind'):
        with tempfile.TemporaryDirectory() as folder:
            counted = ['valgrind', '--tool=callgrind', '--callgrind-out-file=' + folder + '/calls'] + command
            run = subprocess.run(counted, input=text, stdout=subprocess.DEVNULL, stderr=subprocess.PIPE)
            return int(re.search(rb'Collected : (\d+)', run.stderr).group(1))
    begin = time.monotonic()
    subprocess.run(command, input=text, stdout=subprocess.DEVNULL)
    return max(1, int(1000 * (time.monotonic() - begin)))


def peak(command, text):
    """The most memory that a command takes over a text, in bytes, by GNU time: a child of this process would count its memory too."""
    with tempfile.TemporaryFile() as source:
        source.write(text)
        source.seek(0)
        run = subprocess.run(['time', '-f', '%M'] + command, stdin=source, stdout=subprocess.DEVNULL, stderr=subprocess.PIPE)
        return 1024 * int(run.stderr.split()[-1])


def main(command):
    count = int(os.environ.get('N', '2000'))
    words = [word for word in os.environ.get('FORMS', '').split(',') if word]
    idle, base = cost(command, b''), peak(command, b'')
    growing = []
    for name, text_of in FORMS.items():
        if words and not any(word in name for word in words):
            continue
        small, large = text_of(count).encode(), text_of(8 * count).encode()
        few, many = cost(command, small) - idle, cost(command, large) - idle
        a_byte = many / len(large)
        growth = a_byte / max(few / len(small), 0.001)
        mark = ''
        if growth > 1.5 and a_byte > 20:
            growing.append(name)
            mark = '  <== grows'
        memory = (peak(command, large) - base) / len(large)
        line = '%-32s %9d bytes %9.1f a byte, %.2f times that of an eighth, %.1f bytes of memory a byte%s'
        print(line % (name, len(large), a_byte, growth, memory, mark), flush=True)
    print('grow faster than the text: ' + (', '.join(growing) or 'none'))


if __name__ == '__main__':
    if len(sys.argv) < 2:
        sys.exit(__doc__)
    main(sys.argv[1:])
