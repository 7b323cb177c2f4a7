"""A slow and plain account of the jobs, written apart from the program.

    python3 reference.py check < DOCUMENT
    python3 reference.py group < DOCUMENT
    python3 reference.py walk [--count N] [--seed N] < DOCUMENT
    python3 reference.py run [--count N [--seed N]] < DOCUMENT
    python3 reference.py emit < DOCUMENT
    python3 reference.py play [--count N] < DOCUMENT
    python3 reference.py make --count N [--seed N] < DOCUMENT

With `--json` each gives its answer as JSON. `answer(words, data)` gives the status and the text for any words and bytes. It
shares nothing with the program: it is there to be compared with it.

A run has many answers, one for each way in which its workers may take turns. The account gives that of the walk, which is
the only one where no two orders of firings are possible. `runs.py` judges all others.
"""
import json
import sys

import emitting
import grouping
import playing
import walking
import words
import writing
from discipline import accepted_lines, first_broken, refusal_text
from printing import block_lines, journal_lines, state_lines
from reading import Fault, Reader, place_of
from setup import check_tree, check_work
from system import quiet, replay, start_state

INPUT_LIMIT = 33554432


class Refused(Exception):
    """A protocol that isn't disciplined, with its refusal."""


def refuse_undisciplined(protocol):
    refusal = first_broken(protocol)
    if refusal is not None:
        raise Refused(refusal)


def set_up(protocol, nodes, work):
    """Tries the protocol, the tree and the work of a document, in this order."""
    refuse_undisciplined(protocol)
    check_tree(nodes)
    check_work(work, protocol, nodes)


# The jobs: each answers the status and the lines for the text of its document and what the words ask for.

def check(text, asked):
    protocol = Reader(text).protocol_alone()
    refuse_undisciplined(protocol)
    return 0, accepted_lines(protocol)


def group(text, asked):
    protocol, nodes, work, history = Reader(text).document()
    set_up(protocol, nodes, work)
    found = grouping.grouped(protocol, nodes, work, history)
    if found is not None:
        return 0, grouped_lines(found)
    state = start_state(protocol, nodes, work)
    _numbers, illegal = replay(protocol, state, history)
    return 8, ['illegal %d' % illegal] + state_lines(state)


def grouped_lines(found):
    """The answer to a history that runs."""
    return ['quiet' if quiet(found.state) else 'open'] + block_lines(found.blocks) + state_lines(found.state)


def work_asked_for(text, asked):
    """The protocol, the tree and the work of a document, with the generated requests where a count is given."""
    protocol, nodes, work = Reader(text).setup()
    set_up(protocol, nodes, work)
    return protocol, nodes, work if asked.count is None else walking.made(protocol, nodes, work, asked.count, asked.seed)


def walked(text, asked):
    """The protocol, the tree and the work of a document, the journal of its walk and the state in which it ends."""
    protocol, nodes, work = work_asked_for(text, asked)
    return protocol, nodes, work, *walking.walk(protocol, nodes, work, asked.seed)


def walk(text, asked):
    protocol, nodes, work, journal, state = walked(text, asked)
    word = 'quiet' if quiet(state) else 'stuck'
    if asked.count is not None:
        return 0, [word, 'requests %d' % walking.requests_of(work), 'answers %d' % walking.answers_of(state)]
    blocks = grouping.grouped(protocol, nodes, work, journal).blocks
    return 0, [word] + journal_lines(journal) + block_lines(blocks) + state_lines(state)


def make(text, asked):
    protocol, nodes, work = work_asked_for(text, asked)
    lines = ['use ' + protocol.name] if Reader(text).word('protocol', 'use') == 'use' else writing.protocol_lines(protocol)
    return 0, lines + [writing.tree_line(nodes)] + writing.work_lines(work)


def emit(text, asked):
    protocol, nodes = Reader(text).protocol_and_tree()
    refuse_undisciplined(protocol)
    check_tree(nodes)
    return 0, emitting.modules_lines(emitting.modules_of(protocol, nodes))


def play(text, asked):
    modules, items = playing.ModuleReader(text).play_document()
    state = playing.start(modules, items)
    played = playing.play(modules, state, playing.DEFAULT_COUNT if asked.count is None else asked.count)
    return 0, playing.play_lines(modules, state, played)


JOBS = {'check': check, 'group': group, 'run': walk, 'walk': walk, 'emit': emit, 'play': play, 'make': make}


def verdict(asked, text):
    """The status and the lines for good words and the text of a document."""
    try:
        return JOBS[asked.job](text, asked)
    except Fault as fault:
        line, column = place_of(text, fault.start)
        return 5 if fault.job == 'text' else 7, ['%s %d:%d %s' % (fault.job, line, column, fault.cause)]
    except Refused as refused:
        return 6, [refusal_text(refused.args[0])]


def answer(given, data):
    """The status and the text for the words after the program's name and the bytes of its input."""
    asked = words.read(given)
    if asked is None:
        return 1, words.USAGE + '\n'
    status, lines = (4, ['too long']) if len(data) > INPUT_LIMIT else verdict(asked, data.decode('latin-1'))
    return status, in_form(asked, status, lines)


def in_form(asked, status, lines):
    """The text of an answer in the form that is asked for."""
    if asked.json:
        return json.dumps({'lines': lines, 'status': status}, separators=(',', ':')) + '\n'
    return '\n'.join(lines) + '\n'


def main():
    given = sys.argv[1:]
    status, text = answer(given, b'' if words.read(given) is None else sys.stdin.buffer.read())
    sys.stdout.write(text)
    sys.stdout.flush()
    sys.exit(status)


if __name__ == '__main__':
    main()
