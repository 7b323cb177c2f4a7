"""Compares a built program with the reference on very many documents.

    python3 run.py PROGRAM [--seed N] [--count N] [--kind KIND] [--keep DIRECTORY]

Two workers share the documents. Each difference is told, and its document kept in a file. With
`--kind` all of the count are of that kind: `--kind verdicts --count 20000` is for `hem check`.
"""
import argparse
import collections
import itertools
import multiprocessing
import os
import sys
import tempfile
import time

import make
import modules
import reference
import texts

WORKERS = 2
KEPT_OF_A_KIND = 20


class Program:
    """Runs the program over documents that stand in a file."""

    def __init__(self, path):
        self.path = path
        self.input = tempfile.TemporaryFile()
        self.output = tempfile.TemporaryFile()

    def answer(self, words, document):
        self.input.seek(0)
        self.input.truncate()
        self.input.write(document)
        self.input.seek(0)
        self.output.seek(0)
        self.output.truncate()
        actions = [(os.POSIX_SPAWN_DUP2, self.input.fileno(), 0), (os.POSIX_SPAWN_DUP2, self.output.fileno(), 1)]
        child = os.posix_spawn(self.path, [self.path] + words, {}, file_actions=actions)
        _, status = os.waitpid(child, 0)
        self.output.seek(0)
        return os.waitstatus_to_exitcode(status), self.output.read()


def part_of(kind, seed, number, worker):
    """A worker's documents of a kind: of a fixed kind, which has no number, every second one, else its own."""
    if number is None:
        return itertools.islice(make.documents(kind, seed, 0), worker, None, WORKERS)
    return make.documents(kind, seed * WORKERS + worker, number // WORKERS)


def label(status, text):
    """A status, with a fault its cause, and with a refusal its clause and how a partner breaks it."""
    words = text.split('\n')[0].split(' ')
    cause = words[2:] if status in (5, 7) else words[3:4] if status == 6 else []
    if cause == ['stable']:
        fields = [word for word in words if '=' in word and not word.startswith('kids=')]
        cause += [words[1], 'pair' if 'then' in words else 'rule', 'fields' if fields else 'no fields']
    return ' '.join(['status %d' % status] + cause)


def compare(task):
    """One worker's documents of one kind: their number, their statuses, and the differences."""
    path, keep, kind, seed, number, worker = task
    program = Program(path)
    words = next([job] for name, _, _, job in make.KINDS if name == kind)
    statuses, differences, told, made = collections.Counter(), 0, [], 0
    begun = time.time()
    for document in part_of(kind, seed, number, worker):
        made += 1
        expected, text = reference.answer(words, document)
        got, output = program.answer(words, document)
        statuses[label(expected, text)] += 1
        if (got, output) != (expected, text.encode('latin-1')):
            differences += 1
            if len(told) < KEPT_OF_A_KIND:
                told.append(kept(keep, kind, seed, worker, made, document, (expected, text), (got, output)))
    return kind, made, statuses, differences, told, time.time() - begun


def kept(keep, kind, seed, worker, place, document, expected, got):
    """Writes a document and both answers to files, and answers what to tell."""
    os.makedirs(keep, exist_ok=True)
    name = os.path.join(keep, '%s-%d-%d-%d' % (kind, seed, worker, place))
    with open(name, 'wb') as file:
        file.write(document)
    with open(name + '.answers', 'wb') as file:
        file.write(b'expected %d\n%s\ngot %d\n%s' % (expected[0], expected[1].encode('latin-1'), got[0], got[1]))
    first = expected[1].encode('latin-1').split(b'\n')[0]
    return '%s: expected %d %r, got %d %r' % (name, expected[0], first[:80], got[0], got[1].split(b'\n')[0][:80])


def word_lists():
    """Lists of words: of a job alone, with options that are good and not, and with what isn't of the language."""
    yield from [[], ['group'], ['check'], ['walk'], ['make'], ['group', 'group'], ['check', 'group'], ['check', 'check'],
                ['emit'], ['play'], ['emit', 'play'],
                ['frob'], ['--json'], ['group', '--json'], ['--json', 'walk'], ['run'], ['run', '--json'], ['group', ''],
                ['check', '--json'], ['emit', '--json'], ['--json', 'play'], ['--json', 'group', '--json'],
                ['group', '--json=true'], ['group', '--json', 'yes'], ['group', '--Json'], ['group', '--jso'],
                ['group', '-json'], ['--', 'group', '--json'], ['--json', '--', 'group'], ['frob', '--json'],
                ['walk', '--count', '--json'], ['--json', 'make', '--count', '2'], ['run', '--count=3', '--json'],
                [''], ['Group'], ['group '], ['--', 'group'], ['group', '--'], ['--', '--'], ['--', 'group', '--'], ['-'],
                ['Check'], ['check|group'], ['watch'], ['mux'], ['migrate'], ['help'], ['--help'], ['-h'], ['--version']]
    for job in ('check', 'group', 'run', 'walk', 'emit', 'play', 'make'):
        for options in (['--count', '1'], ['--seed', '1'], ['--seed', '1', '--count', '1'], ['--count=1', '--seed=1']):
            yield [job] + options
            yield options + [job]
            yield options[:1] + [job] + options[1:]
            yield options + ['--', job]
            yield ['--', job] + options
            yield [job] + options + options
    for number in ('0', '1', '2', '100000', '100001', '0' * 19 + '1', '0' * 20 + '1', '0' * 20, '18446744073709551615',
                   '18446744073709551616', '99999999999999999999', '', ' 1', '1 ', '-1', '+1', '1.0', '0x1', '1e2', 'one',
                   '\u0661', '--', '-', '=', '==1', '--seed', '--count', 'walk'):
        for words in (['walk', '--count', number], ['walk', '--count=' + number], ['walk', '--seed', number],
                      ['--seed=' + number, 'walk'], ['make', '--count', number], ['make', '--seed', number, '--count', '2'],
                      ['play', '--count', number], ['play', '--seed', number], ['emit', '--count=' + number],
                      ['run', '--seed', number], ['run', '--count', '2', '--seed', number]):
            yield words
    yield from [['walk', '--count'], ['walk', '--seed'], ['--count', 'walk'], ['make', '--seed', '3'],
                ['walk', '--cou', '3'], ['walk', '-c', '3'], ['walk', '-count', '3'], ['walk', '--Count', '3'],
                ['walk', '--count:3'],
                ['walk', '--count', '1', '--count', '1'], ['walk', '--count=1', '--count', '1'],
                ['walk', '--seed', '1', '--seed', '2'], ['make', '--count', '1', 'make'], ['walk', '1'], ['walk', '--', '1']]


def words_differ(path):
    """The differences on words."""
    program, wrong, count = Program(path), [], 0
    for words in word_lists():
        its = words_document(words)
        expected, text = reference.answer(words, its)
        count += 1
        if program.answer(words, its) != (expected, text.encode()):
            wrong.append(words)
    return count, wrong


def words_document(words):
    """A small document of the job among the words: with a history, but for the jobs that make their own."""
    if 'play' in words:
        return texts.data(modules.TINY)
    ends = {'run': 'history', 'walk': 'history', 'make': 'history', 'emit': 'work'}
    end = next((ends[word] for word in words if word in ends), None)
    return texts.data(texts.SMALL if end is None else texts.SMALL[:texts.SMALL.index(end)])


def main():
    parser = argparse.ArgumentParser()
    parser.add_argument('program')
    parser.add_argument('--seed', type=int, default=1)
    parser.add_argument('--count', type=int, default=100000)
    parser.add_argument('--kind', choices=[name for name, _, _, _ in make.KINDS], help='only this kind')
    parser.add_argument('--keep', help='the directory for the documents that differ')
    args = parser.parse_args()
    keep = args.keep or os.path.join(tempfile.gettempdir(), 'hem-differences')
    path = os.path.abspath(args.program)
    number, wrong = words_differ(path)
    print('words: %d lists, %d differences %s' % (number, len(wrong), wrong or ''))
    numbers = {name: share and int(args.count * (1 if args.kind else share)) for name, _, share, _ in make.KINDS}
    kinds = [args.kind] if args.kind else list(numbers)
    tasks = [(path, keep, kind, args.seed, numbers[kind], worker) for kind in kinds for worker in range(WORKERS)]
    total, bad = 0, len(wrong)
    with multiprocessing.Pool(WORKERS) as pool:
        for kind, made, statuses, differences, told, seconds in pool.imap(compare, tasks, chunksize=1):
            if made:
                table = ', '.join('%s: %d' % pair for pair in sorted(statuses.items()))
                print('%-17s %6d documents, %d differences, %.0f s (%s)' % (kind, made, differences, seconds, table))
                for line in told:
                    print('  ' + line)
                sys.stdout.flush()
            total += made
            bad += differences
    print('%d documents, %d differences' % (total, bad))
    sys.exit(1 if bad else 0)


if __name__ == '__main__':
    main()
