"""A plain account of a walk, of a run by workers, and of a document that is made."""
from collections import Counter

import system
import walking

from explaining.firings import possible
from explaining.phrases import counted, listed
from explaining.states import ending, object_accounts, regrouped

SHOWN = 24


def walked(protocol, nodes, work, journal, state, seed):
    """The lines for a walk whose journal, blocks and state are the answer."""
    return made_by('The walk from the seed %d makes' % seed, protocol, nodes, work, journal, state)


def ran(protocol, nodes, work, journal, state):
    """The lines for a run by workers whose journal, blocks and state are the answer."""
    return made_by('The workers make', protocol, nodes, work, journal, state)


def made_by(who_makes, protocol, nodes, work, journal, state):
    numbers, _ = system.replay(protocol, system.start_state(protocol, nodes, work), journal)
    lines = ['%s %s, of %s.' % (who_makes, counted(len(journal), 'firing'), counted(len(set(numbers)), 'transaction'))]
    lines += [regrouped(numbers)] * bool(journal) + ended(state) + why_over(protocol, work, state) + ['']
    return lines + object_accounts(state)


def ended(state):
    """Whether a walk ended quiet, and if not, what it leaves."""
    return ending(state, 'stuck', 'Left')


def why_over(protocol, work, state):
    """Why a walk has ended."""
    spent = sorted({firing.rule for firing in possible(protocol, state)})
    if not spent:
        return ['It ends there because no firing is possible.']
    return ['It ends there because only rules that take nothing are possible (%s), and of their firings each object may make'
            ' at most %d on a line.' % (listed('`%s`' % name for name in spent), work.self_count)]


def is_generated(entry, work):
    """Whether an entry's requests are generated ones, which stand at the word `work`."""
    return entry[1] == work.start


def requests_lines(work, seed):
    """How many requests a work has with its generated ones."""
    more = sum(len(entry[4]) for entry in work.entries if is_generated(entry, work))
    own = walking.requests_of(work) - more
    if more == 0:
        return ['The protocol has no message of class `ext_req`, so nothing is generated: a processor has nothing to ask.']
    return ['The work has %s of its own, and %d generated from the seed %d.' % (counted(own, 'request'), more, seed)]


def summed_up(work, journal, state, seed):
    """The lines for a walk of which the summary alone is the answer."""
    lines = requests_lines(work, seed)
    lines += ['The walk, from the same seed anew, makes %s.' % counted(len(journal), 'firing')] + ended(state)
    return lines + answered(walking.requests_of(work), walking.answers_of(state))


def run_summed_up(work, seed, word, answers):
    """The lines for a run by workers of which the summary alone is the answer."""
    ends = 'It ends quiet: no message waits but answers, and no lock is held.' if word == 'quiet' else \
        'It ends stuck: a message waits or a lock is held, and nothing is possible any more.'
    return requests_lines(work, seed) + [ends] + answered(walking.requests_of(work), answers)


def answered(requests, answers):
    """How many of the requests are answered."""
    if answers == requests:
        return ['Each request is answered.']
    return ['Of %s, %s answered.' % (counted(requests, 'request'), '1 is' if answers == 1 else '%d are' % answers)]


def made(work, seed):
    """The lines for a document that is made."""
    own, more = Counter(), Counter()
    for entry in work.entries:
        (more if is_generated(entry, work) else own)[entry[0], entry[2]] += len(entry[4])
    places = sorted(place for place in set(own) | set(more) if own[place] + more[place])
    lines = requests_lines(work, seed) + ['', 'By leaf and line:'] * bool(places)
    lines += ['    leaf %d, line %d: %d of its own, %d generated' % (*place, own[place], more[place])
              for place in places[:SHOWN]]
    return lines + (['    and %d more' % (len(places) - SHOWN)] if len(places) > SHOWN else [])
