#!/usr/bin/env python3
"""Runs the built program on a document five times, and prints its least time and the most memory that it held.

    python3 bench/measure.py DOCUMENT [WORD..]    the words are those of the job, else `group`
"""
import os
import subprocess
import sys
import time

PROGRAM = './crates/hem/out/hem'


def run(path, words):
    """The seconds, the most kilobytes, the status and the bytes of text of one run.

    The text isn't kept: a new process counts as its own what memory this one has.
    """
    start = time.perf_counter()
    with open(path, 'rb') as document:
        process = subprocess.Popen([PROGRAM] + words, stdin=document, stdout=subprocess.PIPE)
        length = 0
        while piece := process.stdout.read(65536):
            length += len(piece)
        _, status, usage = os.wait4(process.pid, 0)
        process.returncode = os.waitstatus_to_exitcode(status)
    return time.perf_counter() - start, usage.ru_maxrss, process.returncode, length


def main(path, *words):
    runs = [run(path, list(words) or ['group']) for _ in range(5)]
    seconds = min(r[0] for r in runs)
    memory = max(r[1] for r in runs)
    print('%d bytes, status %d, %d bytes of text, %.3f s, %d KB'
          % (os.path.getsize(path), runs[0][2], runs[0][3], seconds, memory))


main(*sys.argv[1:])
