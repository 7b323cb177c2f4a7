"""Tries walks and made works on very many random documents of accepted protocols.

    python3 walks.py [PROGRAM] [--count N] [--kind KIND] [--seed N] [--workers N] [--keep DIRECTORY]

There are N walks, and half as many made works and damaged documents; with `--kind` only one of these. Of each document the
account finds the answer, and it is tried that a walk is the one that looks at all objects at each turn, ends where only
spent self firings are possible, keeps to its bounds, and is a history to its state; that a made document reads as the work
that it was made from; and that this work walks to the same end. Where a program is given, its answer must be the account's;
its journal, given to it as a history, must lead to the same blocks and the same state; and its answer to the document that
it makes must be the account's again. Damaged documents have a token changed.
"""
import argparse
import collections
import itertools
import multiprocessing
import os
import random
import sys
import tempfile
import time

import accepted
import grouping
import make
import protocols
import reading
import reference
import run
import system
import walking
import words
import writing
from designs import disciplined
from printing import state_lines
from setup import starts
from shipped import SHIPPED
from texts import data, layout

OF_A_TASK = 250
SEEDS = ['0', '1', '7', '65535', '65536', '4294967296', '18446744073709551615', '007']


# Documents

def without_requests(rng):
    """A protocol whose processors ask for nothing: a shipped one without these messages and the rules that take them."""
    protocol = reading.Reader(SHIPPED[rng.choice(sorted(SHIPPED))]).protocol()
    messages = {name: cls for name, cls in protocol.messages.items() if cls != 'ext_req'}
    rules = protocol.kinds['leaf'].rules
    for name in [name for name, rule in rules.items() if rule.take[0] == 'me']:
        del rules[name]
    return writing.protocol_tokens(protocol._replace(messages=messages))


def protocol_words(rng):
    form = rng.random()
    if form < 0.35:
        return ['use', rng.choice(sorted(SHIPPED))]
    if form < 0.65:
        return accepted.changed(rng, rng.choice(sorted(SHIPPED)))
    if form < 0.95:
        return writing.protocol_tokens(disciplined(rng))
    return without_requests(rng)


def document(rng, most_entries):
    """A document of protocol, tree and work, as tokens."""
    tokens = protocol_words(rng)
    protocol = reading.Reader(' '.join(tokens)).protocol()
    tree = rng.choice([protocols.deep_tree(rng), protocols.tree(rng, 4, 8), ['tree', 'root', '(', 'leaf', ')']])
    kinds = ['root'] + [token for token in tree[2:] if token in ('leaf', 'mid')]
    lines = rng.choice([1, 1, 1, 2, 3, 16])
    return tokens + tree + protocols.work(rng, protocol, kinds, lines, most_entries)


def option(rng, name, value):
    return rng.choice([['--%s' % name, value], ['--%s=%s' % (name, value)]])


def in_any_place(rng, job, options):
    """The words of a job with its options, in any order."""
    parts = [[job]] + options
    rng.shuffle(parts)
    return list(itertools.chain.from_iterable(parts))


def seed_options(rng):
    return [option(rng, 'seed', rng.choice(SEEDS + [str(rng.randrange(10 ** rng.randint(1, 19)))]))] * (rng.random() < 0.8)


def walk_words(rng):
    options = seed_options(rng)
    if rng.random() < 0.5:
        options.append(option(rng, 'count', str(rng.choice([1, 2, 3, 10, 40, 150, 400]))))
    return in_any_place(rng, 'walk', options)


def make_words(rng):
    count = rng.choice([1, 2, 3, 17, 100, rng.randint(1, 2000), 100000 if rng.random() < 0.02 else 5])
    return in_any_place(rng, 'make', seed_options(rng) + [option(rng, 'count', str(count))])


def walks(rng):
    while True:
        given = walk_words(rng)
        yield given, data(layout(rng, document(rng, rng.choice([1, 4, 10]))))


def makes(rng):
    while True:
        yield make_words(rng), data(layout(rng, document(rng, rng.choice([1, 4, 30]))))


def damaged(rng):
    """Documents with a token changed, and now and then cut."""
    while True:
        tokens = document(rng, 4)
        for _ in range(20):
            given = rng.choice([walk_words, make_words])(rng)
            changed = make.random_change(rng, tokens)
            yield given, data(changed[:rng.randrange(len(changed) + 1)] if rng.random() < 0.1 else changed)


KINDS = {'walks': walks, 'makes': makes, 'damaged': damaged}
SHARES = {'walks': 1, 'makes': 0.5, 'damaged': 0.5}


# What is tried of the account

def of_walk(text, asked):
    """What is wrong with the account's walk, or nothing."""
    protocol, nodes, work, journal, state = reference.walked(text, asked)
    plain = walking.walk(protocol, nodes, work, asked.seed, True) if len(journal) < 300 else None
    if plain is not None and plain.journal != journal:
        return 'another walk where all objects are looked at'
    if len(journal) > 3 * len(nodes) * starts(work, nodes):
        return 'too many firings'
    again = system.start_state(protocol, nodes, work)
    _, illegal = system.replay(protocol, again, journal)
    if illegal is not None or state_lines(again) != state_lines(state):
        return 'the walk is no history to its state'
    return of_end(protocol, work, journal, state)


def of_end(protocol, work, journal, state):
    """Whether a walk keeps to the bound on self firings, and ends where only spent ones are possible."""
    own = collections.Counter()
    for firing in journal:
        rule = protocol.kinds[state[firing.line][firing.object].kind].rules[firing.rule]
        own[firing.line, firing.object] += rule.take[0] == 'none'
    if any(count > work.self_count for count in own.values()):
        return 'too many self firings'
    for line, objects in enumerate(state):
        for place, here in enumerate(objects):
            for firing in protocols.candidates(protocol, state, line, place):
                is_own = protocol.kinds[here.kind].rules[firing.rule].take[0] == 'none'
                is_spent = is_own and own[line, place] >= work.self_count
                if not is_spent and system.plan(protocol, state, firing) is not None:
                    return 'a firing is left'
    return None


def of_make(text, asked, made_text):
    """What is wrong with the account's made document, or nothing."""
    protocol, nodes, work = reference.work_asked_for(text, asked)
    read_protocol, read_nodes, read_work = reading.Reader(made_text).setup()
    if writing.work_lines(read_work) != writing.work_lines(work):
        return 'the made document reads as another work'
    if writing.tree_line(read_nodes) != writing.tree_line(nodes):
        return 'the made document reads as another tree'
    if writing.protocol_lines(read_protocol) != writing.protocol_lines(protocol):
        return 'the made document reads as another protocol'
    walked = reference.answer(['walk', '--count', str(asked.count), '--seed', str(asked.seed)], data(text))
    of_made = reference.answer(['walk', '--seed', str(asked.seed)], data(made_text)) if len(made_text) < 3000 else None
    if of_made is not None and walked[1].split('\n')[0] != of_made[1].split('\n')[0]:
        return 'the made work walks otherwise'
    return None


# What is tried of a program

def of_journal(program, document_text, text):
    """Whether `group` takes the journal of an answer to its blocks and its state."""
    lines = text.decode('latin-1').split('\n')
    count = int(lines[1].split(' ')[1])
    history = document_text + '\nhistory\n' + ''.join(line + '\n' for line in lines[2:2 + count]) + 'end\n'
    status, again = program.answer(['group'], data(history))
    if status != 0 or again.decode('latin-1').split('\n')[1:] != lines[2 + count:]:
        return 'another answer to the journal as a history'
    return None


def fault_of(program, given, document_bytes):
    """What is wrong with the answers to a document, or nothing; and the account's status and first word."""
    text = document_bytes.decode('latin-1')
    expected = reference.answer(given, document_bytes)
    asked, fault = words.read(given), None
    if expected[0] == 0 and asked.job == 'walk':
        fault = of_walk(text, asked)
    if expected[0] == 0 and asked.job == 'make':
        fault = of_make(text, asked, expected[1])
    if fault is None and program is not None:
        got = program.answer(given, document_bytes)
        if got != (expected[0], data(expected[1])):
            return 'another answer than that of the account', expected
        if got[0] == 0 and asked.job == 'walk' and asked.count is None:
            fault = of_journal(program, text, got[1])
        if got[0] == 0 and asked.job == 'make' and len(got[1]) < 20000:
            again = reference.answer(given, got[1])
            if program.answer(given, got[1]) != (again[0], data(again[1])):
                fault = 'another answer to the made document'
    return fault, expected


def label(given, expected):
    """A job with its status, and how a walk ends or which fault there is."""
    asked = words.read(given)
    line = expected[1].split('\n')[0].split(' ')
    what = line[0] if expected[0] == 0 and asked.job == 'walk' else ' '.join(line[2:]) if expected[0] in (5, 7) else ''
    job = asked.job + (' with a count' if asked.job == 'walk' and asked.count is not None else '')
    return ('%s: status %d %s' % (job, expected[0], what)).rstrip()


def try_all(task):
    """The documents of a task: what they are, and what is wrong."""
    path, keep, kind, seed, count, number = task
    program = run.Program(path) if path else None
    counts, wrong = collections.Counter(), []
    rng = random.Random('%s %d %d' % (kind, seed, number))
    for given, document_bytes in itertools.islice(KINDS[kind](rng), count):
        fault, expected = fault_of(program, given, document_bytes)
        counts[label(given, expected)] += 1
        if fault is not None:
            counts['differences'] += 1
            if len(wrong) < run.KEPT_OF_A_KIND:
                name = kept(keep, '%s-%d-%d-%d' % (kind, seed, number, len(wrong)), given, document_bytes)
                wrong.append('%s: %s' % (name, fault))
    return counts, wrong


def kept(keep, name, given, document_bytes):
    """Writes a document to a file, which names its words in its first line, and answers the file's name."""
    os.makedirs(keep, exist_ok=True)
    path = os.path.join(keep, name)
    with open(path, 'wb') as file:
        file.write(data('# hem %s\n' % ' '.join(given)) + document_bytes)
    return path


def main():
    parser = argparse.ArgumentParser()
    parser.add_argument('program', nargs='?')
    parser.add_argument('--count', type=int, default=10000)
    parser.add_argument('--kind', choices=list(KINDS), help='only this kind')
    parser.add_argument('--seed', type=int, default=1)
    parser.add_argument('--workers', type=int, default=2)
    parser.add_argument('--keep', default=os.path.join(tempfile.gettempdir(), 'hem-differences'),
                        help='the directory for the documents that differ')
    args = parser.parse_args()
    path = os.path.abspath(args.program) if args.program else None
    numbers = {kind: int(args.count * SHARES[kind]) for kind in ([args.kind] if args.kind else KINDS)}
    tasks = [(path, args.keep, kind, args.seed, min(OF_A_TASK, number - start), start // OF_A_TASK)
             for kind, number in numbers.items() for start in range(0, number, OF_A_TASK)]
    begun, counts = time.time(), collections.Counter()
    with multiprocessing.Pool(args.workers) as pool:
        for its_counts, wrong in pool.imap_unordered(try_all, tasks):
            counts += its_counts
            for line in wrong:
                print(line, flush=True)
    for what, count in sorted(counts.items()):
        if what != 'differences':
            print('%6d %s' % (count, what))
    print('%d differences, %.0f s' % (counts['differences'], time.time() - begun))
    sys.exit(1 if counts['differences'] else 0)


if __name__ == '__main__':
    main()
