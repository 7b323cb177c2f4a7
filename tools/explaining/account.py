"""Goes through a document as its job does, and hands what it finds to the part that tells it."""
import emitting
import playing
import reference
import runs
import walking
from discipline import first_broken, template
from reading import Fault, Reader
from reference import INPUT_LIMIT
from setup import check_tree, check_work
from system import replay, start_state

from explaining import firings, plays, refusals, setup_faults, states, text_faults, walks


def of_document(asked, document):
    """The lines that explain the answer to a document, for what the words ask for."""
    if len(document) > INPUT_LIMIT:
        sizes = format(len(document), ','), format(INPUT_LIMIT, ',')
        return ['The text has %s bytes, and may have at most %s.' % sizes]
    text = document.decode('latin-1')
    try:
        if asked.job in WITHOUT_WORK:
            return WITHOUT_WORK[asked.job](text, asked)
        return of_history(text) if asked.job == 'group' else of_work(text, asked)
    except Fault as fault:
        return text_faults.told(text, fault)


def of_protocol(text, asked):
    protocol = Reader(text).protocol_alone()
    refusal = first_broken(protocol)
    return refusals.told(text, protocol, refusal) if refusal else refusals.accepted(protocol, template)


def of_emit(text, asked):
    protocol, nodes = Reader(text).protocol_and_tree()
    return set_up(text, protocol, nodes) or plays.emitted(nodes, emitting.modules_of(protocol, nodes))


def of_play(text, asked):
    modules, items = playing.ModuleReader(text).play_document()
    return plays.played(modules, items, playing.DEFAULT_COUNT if asked.count is None else asked.count)


WITHOUT_WORK = {'check': of_protocol, 'emit': of_emit, 'play': of_play}


def set_up(text, protocol, nodes, work=None):
    """The lines for a protocol, a tree or a work that is refused, or nothing."""
    refusal = first_broken(protocol)
    if refusal:
        return refusals.told(text, protocol, refusal)
    try:
        check_tree(nodes)
        if work is not None:
            check_work(work, protocol, nodes)
    except Fault as fault:
        return setup_faults.told(text, fault, protocol, nodes, work)
    return None


def of_history(text):
    protocol, nodes, work, history = Reader(text).document()
    refused = set_up(text, protocol, nodes, work)
    if refused:
        return refused
    state = start_state(protocol, nodes, work)
    numbers, illegal = replay(protocol, state, history)
    if illegal is not None:
        return firings.told(text, protocol, state, history, illegal)
    return states.told(protocol, state, history, numbers)


def of_work(text, asked):
    """The lines for a walk or for a made document."""
    protocol, nodes, work = Reader(text).setup()
    refused = set_up(text, protocol, nodes, work)
    if refused:
        return refused
    if asked.count is not None:
        try:
            work = walking.made(protocol, nodes, work, asked.count, asked.seed)
        except Fault as fault:
            return setup_faults.of_made(text, fault, nodes, work, asked.count)
    if asked.job == 'make':
        return walks.made(work, asked.seed)
    journal, state = walking.walk(protocol, nodes, work, asked.seed)
    if asked.count is not None:
        return walks.summed_up(work, journal, state, asked.seed)
    return walks.walked(protocol, nodes, work, journal, state, asked.seed)


def of_run(asked, document, lines):
    """The lines for a run by workers, by the lines of its answer."""
    protocol, nodes, work = reference.work_asked_for(document.decode('latin-1'), asked)
    if asked.count is not None:
        return walks.run_summed_up(work, asked.seed, lines[0], int(lines[2].split(' ')[1]))
    journal = runs.journal_of(lines)
    state = start_state(protocol, nodes, work)
    replay(protocol, state, journal)
    return walks.ran(protocol, nodes, work, journal, state)
