#!/usr/bin/env python3
"""large.py PROGRAM WORDS..: runs a program over a text of 64 MiB of each form of shapes.py, one at a time, and prints how each run ends:
its status, its seconds of processor time, and the memory that it takes at the most, in MB and in bytes a byte of the text.

The program reads the text on standard input, in an address space of GB=4 (environment) thousand million bytes; e.g. large.py ./granit events
With FORMS=word,.. in the environment only forms whose names hold one of the words are tried.
"""
import os
import resource
import subprocess
import sys
import tempfile

sys.dont_write_bytecode = True
from shapes import FORMS

MOST = 67_108_864


def largest(text_of):
    """The bytes of a text of a form, nearly as long as may be."""
    count = 100_000 * MOST // len(text_of(100_000).encode())
    text = text_of(count).encode()
    while len(text) > MOST:
        count = count * MOST // len(text) - 1
        text = text_of(count).encode()
    return text


def limited():
    most = int(float(os.environ.get('GB', '4')) * 1_000_000_000)
    resource.setrlimit(resource.RLIMIT_AS, (most, most))


def run(command, source):
    """The status, the seconds and the peak in bytes of a command over a file, by GNU time: a child of this process would count its memory too."""
    timed = ['time', '-q', '-f', '%x %U %S %M'] + command
    ran = subprocess.run(timed, stdin=source, stdout=subprocess.DEVNULL, stderr=subprocess.PIPE, preexec_fn=limited)
    status, user, system, peak = ran.stderr.split()[-4:]
    return int(status), float(user) + float(system), 1024 * int(peak)


def main(command):
    words = [word for word in os.environ.get('FORMS', '').split(',') if word]
    for name, text_of in FORMS.items():
        if words and not any(word in name for word in words):
            continue
        with tempfile.TemporaryFile() as source:
            size = source.write(largest(text_of))
            source.seek(0)
            status, seconds, peak = run(command, source)
        line = '%-32s %9d bytes: status %d, %.1f seconds, %d MB, %.1f bytes of memory a byte'
        print(line % (name, size, status, seconds, peak // 1_000_000, peak / size), flush=True)


if __name__ == '__main__':
    if len(sys.argv) < 2:
        sys.exit(__doc__)
    main(sys.argv[1:])
