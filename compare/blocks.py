"""Tries the printed order on very many random histories of accepted protocols.

    python3 blocks.py [PROGRAM] [--seed N] [--count N] [--workers N] [--keep DIRECTORY]

Of each history the account finds the blocks, and it is tried that they have all its firings, are blocks one after
another, run to the same state, and are their own blocks again. Where a program is given, its answer must be the account's,
and its printed blocks, given to it as a history, must lead to the same state with the same blocks again.
"""
import argparse
import collections
import itertools
import multiprocessing
import os
import sys
import tempfile
import time

import accepted
import grouping
import order
import reference
import run
import system
from printing import state_lines


OF_A_TASK = 500


def firings_of(blocks):
    return [firing for _, its in blocks for firing in its]


def of_account(its, history, found):
    """What is wrong with the account's blocks of a history, or nothing."""
    again = grouping.grouped(its.protocol, its.nodes, its.work, firings_of(found.blocks), its.upward)
    if collections.Counter(history) != collections.Counter(firings_of(found.blocks)):
        return 'other firings'
    if again is None:
        return 'the blocks do not run'
    if state_lines(found.state) != state_lines(again.state):
        return 'another state'
    if not order.are_blocks(again.steps, [len(firings) for _, firings in found.blocks]):
        return 'no blocks'
    if [firings for _, firings in found.blocks] != [firings for _, firings in again.blocks]:
        return 'other blocks again'
    return None


def parts_of(text):
    """The blocks, each as its lines without its number, and the state of a program's answer, as lines."""
    lines = text.decode('latin-1').split('\n')
    if len(lines) < 2 or not lines[1].startswith('blocks ') or 'state' not in lines:
        return None
    blocks = []
    for line in lines[2:lines.index('state')]:
        if line.startswith('block '):
            blocks.append([])
        else:
            blocks[-1].append(line)
    return blocks, lines[lines.index('state'):]


def of_program(program, its, history, found):
    """What is wrong with a program's answers to a history and to its blocks, or nothing."""
    got = program.answer(['group'], its.bytes(history))
    if got != (0, ('\n'.join(reference.grouped_lines(found)) + '\n').encode('latin-1')):
        return 'another answer than that of the account'
    blocks, state = parts_of(got[1])
    lines = [line for block in blocks for line in block]
    text = its.text + 'history\n' + ''.join(line + '\n' for line in lines) + 'end\n'
    status, again = program.answer(['group'], text.encode('latin-1'))
    if status != 0 or parts_of(again) != (blocks, state):
        return 'another answer to the printed blocks'
    return None


def features(history, found):
    """What the table of the documents counts."""
    numbers = [number for number, _ in found.blocks]
    yield 'documents'
    yield 'quiet' if system.quiet(found.state) else 'open'
    if len({firing.line for firing in history}) > 1:
        yield 'of several lines'
    if firings_of(found.blocks) != history:
        yield 'with firings moved'
    if numbers != sorted(numbers):
        yield 'with transactions in another order than they began'


def try_all(task):
    """The documents of a task: what they are, and what is wrong."""
    path, keep, seed, count, number = task
    program = run.Program(path) if path else None
    counts, wrong = collections.Counter(), []
    for its, history in itertools.islice(accepted.documents('%d %d' % (seed, number)), count):
        found = grouping.grouped(its.protocol, its.nodes, its.work, history, its.upward)
        fault = 'the history does not run' if found is None else of_account(its, history, found)
        if fault is None and program is not None:
            fault = of_program(program, its, history, found)
        counts.update([] if found is None else features(history, found))
        if fault is not None:
            counts['differences'] += 1
            if len(wrong) < run.KEPT_OF_A_KIND:
                wrong.append('%s: %s' % (kept(keep, seed, number, len(wrong), its.bytes(history)), fault))
    return counts, wrong


def kept(keep, seed, number, place, document):
    """Writes a document to a file and answers its name."""
    os.makedirs(keep, exist_ok=True)
    name = os.path.join(keep, 'blocks-%d-%d-%d' % (seed, number, place))
    with open(name, 'wb') as file:
        file.write(document)
    return name


def main():
    parser = argparse.ArgumentParser()
    parser.add_argument('program', nargs='?')
    parser.add_argument('--seed', type=int, default=1)
    parser.add_argument('--count', type=int, default=100000)
    parser.add_argument('--workers', type=int, default=4)
    parser.add_argument('--keep', default=os.path.join(tempfile.gettempdir(), 'hem-differences'),
                        help='the directory for the documents that differ')
    args = parser.parse_args()
    path = os.path.abspath(args.program) if args.program else None
    begun, counts = time.time(), collections.Counter()
    starts = range(0, args.count, OF_A_TASK)
    tasks = [(path, args.keep, args.seed, min(OF_A_TASK, args.count - start), k) for k, start in enumerate(starts)]
    with multiprocessing.Pool(args.workers) as pool:
        for its_counts, wrong in pool.imap_unordered(try_all, tasks):
            counts += its_counts
            for line in wrong:
                print(line)
            if its_counts['documents'] and counts['documents'] % 10000 < OF_A_TASK:
                print('%d documents, %d differences so far' % (counts['documents'], counts['differences']), flush=True)
    print(', '.join('%d %s' % (count, what) for what, count in counts.most_common() if what != 'differences'))
    print('%d differences, %.0f s' % (counts['differences'], time.time() - begun))
    sys.exit(1 if counts['differences'] else 0)


if __name__ == '__main__':
    main()
