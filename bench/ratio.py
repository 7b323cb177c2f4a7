#!/usr/bin/env python3
"""Runs two programs on documents, for bench/ratio.sh.

    python3 bench/ratio.py same PROGRAM PLAIN DOCUMENT..             whether both give the same text and status
    python3 bench/ratio.py measure PROGRAM PLAIN DOCUMENT [WORD..]   that, and both times, their ratio and the most memory
                                                                     of both; the words are those of the job, else `group`

`same` runs a document by the words that its first line names, as `# hem walk --seed 3`, and else by `group`.
"""
import hashlib
import os
import re
import subprocess
import sys
import time

RUNS = 5


def words_of(path):
    """The words by which a document is run; the plain program has no job `check`."""
    with open(path, encoding='latin-1') as document:
        named = re.match(r'# hem ((?:run|walk|emit|play|make)[a-z0-9= -]*)$', document.readline().rstrip('\r\n'))
    return named.group(1).split() if named else ['group']


def run(program, path, words):
    """The seconds, the most kilobytes, the status and a checksum of the text of one run.

    The text isn't kept: a new process counts as its own what memory this one has.
    """
    start = time.perf_counter()
    with open(path, 'rb') as document:
        process = subprocess.Popen([program] + words, stdin=document, stdout=subprocess.PIPE)
        text = hashlib.sha256()
        while piece := process.stdout.read(65536):
            text.update(piece)
        _, status, usage = os.wait4(process.pid, 0)
        process.returncode = os.waitstatus_to_exitcode(status)
    return time.perf_counter() - start, usage.ru_maxrss, process.returncode, text.digest()


def ensure_same(program, plain, path, words):
    """Ends with an error where the two programs differ on a document."""
    if run(program, path, words)[2:] != run(plain, path, words)[2:]:
        sys.exit('%s: the programs differ' % path)


def measure(program, plain, path, words):
    """Prints what five runs of each took; the runs of the two take turns, so that both see the same machine."""
    ensure_same(program, plain, path, words)
    pairs = [(run(program, path, words), run(plain, path, words)) for _ in range(RUNS)]
    ours, theirs = [min(pair[k][0] for pair in pairs) for k in range(2)]
    memory = [max(pair[k][1] for pair in pairs) / 1024 for k in range(2)]
    print('hem %.3f s, plain %.3f s, ratio %.2f; hem %.1f MB, plain %.1f MB' % (ours, theirs, ours / theirs, *memory))


def main(given):
    if len(given) >= 3 and given[0] == 'same':
        for path in given[3:]:
            ensure_same(given[1], given[2], path, words_of(path))
        print('%d documents: the same text and status' % len(given[3:]))
    elif len(given) >= 4 and given[0] == 'measure':
        measure(given[1], given[2], given[3], given[4:] or ['group'])
    else:
        sys.exit(__doc__)


main(sys.argv[1:])
