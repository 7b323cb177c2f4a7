"""Judges runs by workers on very many random documents of accepted protocols.

    python3 runs.py PROGRAM [--count N] [--kind KIND] [--seed N] [--workers N] [--keep DIRECTORY]

There are N runs, and half as many damaged documents; with `--kind` only one of these. A run has many answers, so each is
judged: without a count its journal is replayed firing by firing from the start of the work, keeps to the bound on self
firings and to the number of firings, and ends where only spent self firings are possible; the word, the blocks and the state
must be those that the account finds for that journal as a history. With a count the summary must have the requests of the
work, and be that of an end. Some are asked for as JSON. An answer with another status must be the account's.
"""
import argparse
import collections
import itertools
import json
import multiprocessing
import os
import sys
import tempfile
import time

import grouping
import reading
import reference
import run
import system
import walking
import walks
import words
from printing import block_lines, state_lines
from setup import starts
from shipped import SHIPPED
from texts import data, layout

OF_A_TASK = 250


# Documents

def run_words(rng):
    options = []
    if rng.random() < 0.4:
        options.append(walks.option(rng, 'count', str(rng.choice([1, 2, 3, 10, 40, 150, 400]))))
        options += walks.seed_options(rng)
    if rng.random() < 0.2:
        options.append(['--json'])
    return walks.in_any_place(rng, 'run', options)


def runs(rng):
    while True:
        given = run_words(rng)
        yield given, data(layout(rng, walks.document(rng, rng.choice([1, 4, 10, 30]))))


def damaged(rng):
    for _, document in walks.damaged(rng):
        yield run_words(rng), document


KINDS = {'runs': runs, 'damaged': damaged}
SHARES = {'runs': 1, 'damaged': 0.5}


# What is tried of an answer

def lines_of(asked, status, text):
    """The lines of an answer, out of its form; None where it isn't of that form."""
    plain = text.decode('latin-1')
    if not plain.endswith('\n'):
        return None
    if not asked.json:
        return plain[:-1].split('\n')
    its = json.loads(plain)
    return its['lines'] if list(its) == ['lines', 'status'] and its['status'] == status else None


def firing_of(line):
    """The firing of a line of a journal: `LINE OBJECT RULE`, and `from CHILD` where it names one."""
    parts = line.split(' ')
    return reading.Firing(int(parts[0]), int(parts[1]), parts[2], int(parts[4]) if len(parts) > 3 else None)


def journal_of(lines):
    """The firings of the journal in an answer."""
    return [firing_of(line) for line in lines[2:2 + int(lines[1].split(' ')[1])]]


def fault_of_journal(protocol, nodes, work, lines):
    """What is wrong with an answer that has a journal, or nothing."""
    journal = journal_of(lines)
    count = len(journal)
    if count > 3 * len(nodes) * starts(work, nodes):
        return 'too many firings'
    state = system.start_state(protocol, nodes, work)
    _, illegal = system.replay(protocol, state, journal)
    if illegal is not None:
        return 'firing %d of the journal is not possible' % illegal
    if lines[0] != ('quiet' if system.quiet(state) else 'stuck'):
        return 'another word than the state has'
    fault = walks.of_end(protocol, work, journal, state)
    if fault is not None:
        return fault
    found = grouping.grouped(protocol, nodes, work, journal)
    if lines[2 + count:] != block_lines(found.blocks) + state_lines(found.state):
        return 'other blocks or another state than those of the journal'
    return None


def fault_of_summary(nodes, work, lines):
    """What is wrong with a summary, or nothing. In a quiet end each request is taken, and none has more than one answer."""
    if len(lines) != 3 or lines[0] not in ('quiet', 'stuck'):
        return 'no summary'
    requests = walking.requests_of(work)
    if lines[1] != 'requests %d' % requests:
        return 'another number of requests'
    name, _, answers = lines[2].partition(' ')
    if name != 'answers' or not 0 <= int(answers) <= requests:
        return 'another number of answers'
    return None


def fault_of_lines(protocol, nodes, work, asked, lines):
    """What is wrong with the lines of an answer with status 0, or nothing."""
    return fault_of_journal(protocol, nodes, work, lines) if asked.count is None else fault_of_summary(nodes, work, lines)


def is_shipped(text):
    return text.split()[:1] == ['use'] and text.split()[1:2][0] in SHIPPED


def fault_of(program, given, document_bytes):
    """What is wrong with the answer to a document, or nothing; and what the answer is."""
    asked, text = words.read(given), document_bytes.decode('latin-1')
    status, output = program.answer(given, document_bytes)
    if status != 0:
        expected = reference.answer(given, document_bytes)
        return None if (status, output) == (expected[0], data(expected[1])) else 'another answer than the account', (status, '')
    try:
        protocol, nodes, work = reference.work_asked_for(text, asked)
    except (reading.Fault, reference.Refused):
        return 'an answer where the account has a fault', (status, '')
    lines = lines_of(asked, status, output)
    if lines is None:
        return 'another form', (status, '')
    fault = fault_of_lines(protocol, nodes, work, asked, lines)
    if fault is None and asked.count is not None and is_shipped(text) and work.self_count == 0:
        walked = reference.answer(given, document_bytes)
        fault = None if data(walked[1]) == output else 'another summary than that of the walk'
    return fault, (status, lines[0])


def label(given, answer):
    asked, (status, word) = words.read(given), answer
    what = ' with a count' if asked.count is not None else ''
    return ('run%s%s: status %d %s' % (what, ' as JSON' if asked.json else '', status, word)).rstrip()


def try_all(task):
    """The documents of a task: what they are, and what is wrong."""
    path, keep, kind, seed, count, number = task
    program = run.Program(path)
    counts, wrong = collections.Counter(), []
    rng = walks.random.Random('runs %s %d %d' % (kind, seed, number))
    for given, document_bytes in itertools.islice(KINDS[kind](rng), count):
        fault, answer = fault_of(program, given, document_bytes)
        counts[label(given, answer)] += 1
        if fault is not None:
            counts['differences'] += 1
            if len(wrong) < run.KEPT_OF_A_KIND:
                name = walks.kept(keep, 'runs-%s-%d-%d-%d' % (kind, seed, number, len(wrong)), given, document_bytes)
                wrong.append('%s: %s' % (name, fault))
    return counts, wrong


def main():
    parser = argparse.ArgumentParser()
    parser.add_argument('program')
    parser.add_argument('--count', type=int, default=5000)
    parser.add_argument('--kind', choices=list(KINDS), help='only this kind')
    parser.add_argument('--seed', type=int, default=1)
    parser.add_argument('--workers', type=int, default=2)
    parser.add_argument('--keep', default=os.path.join(tempfile.gettempdir(), 'hem-differences'),
                        help='the directory for the documents that differ')
    args = parser.parse_args()
    numbers = {kind: int(args.count * SHARES[kind]) for kind in ([args.kind] if args.kind else KINDS)}
    tasks = [(os.path.abspath(args.program), args.keep, kind, args.seed, min(OF_A_TASK, number - start), start // OF_A_TASK)
             for kind, number in numbers.items() for start in range(0, number, OF_A_TASK)]
    begun, counts = time.time(), collections.Counter()
    with multiprocessing.Pool(args.workers) as pool:
        for its_counts, wrong in pool.imap_unordered(try_all, tasks):
            counts += its_counts
            for line in wrong:
                print(line, flush=True)
    for what, count in sorted(counts.items()):
        if what != 'differences':
            print('%6d %s' % (count, what))
    print('%d differences, %.0f s' % (counts['differences'], time.time() - begun))
    sys.exit(1 if counts['differences'] else 0)


if __name__ == '__main__':
    main()
