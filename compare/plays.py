"""Tries the jobs `emit` and `play` on very many random documents, and modules in step with their protocols.

    python3 plays.py [PROGRAM] [--emits N] [--plays N] [--steps N] [--each] [--seed N] [--workers N] [--keep DIRECTORY]

There are N emits, of accepted and refused protocols on all sorts of trees, good and damaged; N plays, of modules written as
by hand, of emitted ones and of broken ones, with feeds and counts; and N walks of accepted protocols, each in step with its
modules. With `--each` also each cut of some fixed module texts, and each token of them left out, doubled and replaced.
Of each document the account finds the answer, and it is tried that an emitted text reads back, and that a play which tries
all rules at each turn is the same. In a walk, at each state, and at states that no walk reaches, it is tried that a module
rule can fire exactly where its firing is possible, and that both lead to the same registers and queues. Where a program is
given, its answers must be the account's, and the modules of the walks are those that it prints.
"""
import argparse
import collections
import itertools
import multiprocessing
import os
import random
import sys
import tempfile
import time

import emitting
import modules
import playing
import reading
import reference
import run
import stepping
import words
from texts import data
from walks import kept, option

OF_A_TASK = 100
MOST_PLAIN = 400


# Documents

def play_words(rng):
    if rng.random() < 0.01:
        return ['play']
    count = rng.choice([1, 1, 2, 3, 5, 20, 100, 400, 2000])
    parts = [['play'], option(rng, 'count', str(count))]
    rng.shuffle(parts)
    return list(itertools.chain.from_iterable(parts))


def emits(rng):
    while True:
        yield ['emit'], modules.of_emit(rng)


def plays(rng):
    while True:
        yield play_words(rng), modules.of_play(rng)


def each(rng):
    """The fixed texts, cut and with each token changed."""
    for document in itertools.chain(modules.each_cut(), modules.each_token(rng)):
        yield ['play', '--count', '50'], document
    yield ['play'], b' ' * (reference.INPUT_LIMIT + 1)
    yield ['play'], b' ' * reference.INPUT_LIMIT


# What is tried of the account

def of_emit(text):
    """What is wrong with an emitted text, or nothing."""
    reader = playing.ModuleReader(text)
    read = reader.modules()
    reader.step(reading.Choice('end'))
    if '\n'.join(emitting.modules_lines(read)) + '\n' != text:
        return 'the emitted text reads otherwise'
    return None


def of_play(text, asked):
    """What is wrong with the account's play, or nothing."""
    if asked.count is None or asked.count > MOST_PLAIN:
        return None
    read, items = playing.ModuleReader(text).play_document()
    states = [playing.start(read, items) for _ in range(2)]
    if playing.play(read, states[0], asked.count) != playing.play_plainly(read, states[1], asked.count):
        return 'another play where all rules are tried'
    return None if states[0] == states[1] else 'another end where all rules are tried'


def fault_of(program, given, document):
    """What is wrong with the answers to a document, or nothing; and the account's status and text."""
    expected, fault = reference.answer(given, document), None
    if expected[0] == 0:
        asked = words.read(given)
        fault = of_emit(expected[1]) if asked.job == 'emit' else of_play(document.decode('latin-1'), asked)
    if fault is None and program is not None and program.answer(given, document) != (expected[0], data(expected[1])):
        fault = 'another answer than that of the account'
    return fault, expected


def label(given, expected):
    """A job with its status, and which fault there is or how a play ends."""
    job, parts = words.read(given).job, expected[1].split('\n')[0].split(' ')
    what = parts[2:] if expected[0] in (5, 7) else parts[3:4] if expected[0] == 6 else parts[:1] if job == 'play' else []
    return ' '.join([job + ':', 'status %d' % expected[0]] + what)


def try_documents(task):
    """The documents of a task: what they are, and what is wrong."""
    path, keep, kind, seed, count, number = task
    program = run.Program(path) if path else None
    counts, wrong = collections.Counter(), []
    rng = random.Random('%s %d %d' % (kind, seed, number))
    documents = KINDS[kind](rng)
    part = itertools.islice(documents, count) if count is not None else itertools.islice(documents, number, None, EACH_PARTS)
    for given, document in part:
        fault, expected = fault_of(program, given, document)
        counts[label(given, expected)] += 1
        if fault is not None:
            counts['differences'] += 1
            if len(wrong) < run.KEPT_OF_A_KIND:
                name = kept(keep, '%s-%d-%d-%d' % (kind, seed, number, len(wrong)), given, document)
                wrong.append('%s: %s' % (name, fault))
    return counts, wrong


# Walks

def try_walk(task):
    """A walk in step with its modules: how many firings and rules were compared, and what is wrong."""
    path, keep, seed, number = task
    rng = random.Random('steps %d %d' % (seed, number))
    tokens = modules.protocol_words(rng) + modules.small_tree(rng)
    document = data(' '.join(tokens) + '\n')
    if path is None:
        protocol, nodes = modules.read_emit(tokens)
        text = '\n'.join(emitting.modules_lines(emitting.modules_of(protocol, nodes)))
    else:
        status, printed = run.Program(path).answer(['emit'], document)
        text = printed.decode('latin-1') if status == 0 else ''
    counts, fault = stepping.walked(rng, tokens, text)
    if fault is None:
        return counts, []
    counts['differences'] += 1
    return counts, ['%s: %s' % (kept(keep, 'steps-%d-%d' % (seed, number), ['emit'], document), fault)]


KINDS = {'emits': emits, 'plays': plays, 'each': each}
EACH_PARTS = 40


def tasks_of(args, path):
    """The tasks, each with the function that does it."""
    for kind, number in (('emits', args.emits), ('plays', args.plays)):
        for start in range(0, number, OF_A_TASK):
            yield try_documents, (path, args.keep, kind, args.seed, min(OF_A_TASK, number - start), start // OF_A_TASK)
    for number in range(args.steps):
        yield try_walk, (path, args.keep, args.seed, number)
    for number in range(EACH_PARTS if args.each else 0):
        yield try_documents, (path, args.keep, 'each', args.seed, None, number)


def do(task):
    function, its = task
    return function(its)


def main():
    parser = argparse.ArgumentParser()
    parser.add_argument('program', nargs='?')
    parser.add_argument('--emits', type=int, default=3000)
    parser.add_argument('--plays', type=int, default=10000)
    parser.add_argument('--steps', type=int, default=200)
    parser.add_argument('--each', action='store_true', help='also each cut and each token of the fixed texts')
    parser.add_argument('--seed', type=int, default=1)
    parser.add_argument('--workers', type=int, default=2)
    parser.add_argument('--keep', default=os.path.join(tempfile.gettempdir(), 'hem-differences'),
                        help='the directory for the documents that differ')
    args = parser.parse_args()
    path = os.path.abspath(args.program) if args.program else None
    begun, counts = time.time(), collections.Counter()
    with multiprocessing.Pool(args.workers) as pool:
        for its_counts, wrong in pool.imap_unordered(do, tasks_of(args, path)):
            counts += its_counts
            for line in wrong:
                print(line, flush=True)
    for what, count in sorted(counts.items()):
        if what != 'differences':
            print('%8d %s' % (count, what))
    print('%d differences, %.0f s' % (counts['differences'], time.time() - begun))
    sys.exit(1 if counts['differences'] else 0)


if __name__ == '__main__':
    main()
