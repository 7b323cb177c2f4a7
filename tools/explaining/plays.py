"""Tells what modules `emit` prints, and what a play of modules has done."""
from collections import Counter

import playing
from emitting import atom_text

from explaining.phrases import bulleted, counted

SHOWN = 20
# So many rules at most, and it is told of each why it can't fire.
FEW = 5


def heading(rule):
    return '%d %s' % (rule.object, rule.name) + ('' if rule.child is None else ' from %d' % rule.child)


def emitted(nodes, modules):
    """The lines for emitted modules."""
    lines = ['The protocol is disciplined and the tree lawful. These are its modules for one line of memory:', '']
    lines += ['%s, %s and %s.' % (counted(len(modules.registers), 'register'), counted(len(modules.queues), 'queue'),
                                  counted(len(modules.rules), 'rule')), '']
    own = Counter(rule.object for rule in modules.rules)
    lines += ['Object %d, %s: %s.' % (place, node.kind, counted(own[place], 'rule')) for place, node in enumerate(nodes)]
    spontaneous = sum(rule.spontaneous for rule in modules.rules)
    return lines + ['', 'Of these rules %d take nothing: `play` never fires them.' % spontaneous]


def played(modules, items, most):
    """The lines for a play."""
    state, journal = playing.start(modules, items), []
    ended = playing.play(modules, state, most, journal)
    lines = ['%s in the queues at the start, and %s.' % (counted(len(items), 'item'), counted(ended.fired, 'firing')), '']
    lines += by_rule(journal) + end_lines(modules, state, ended, most)
    return lines + ['', 'The state left:'] + ['  ' + line for line in playing.play_lines(modules, state, ended)[2:-1]]


def by_rule(journal):
    """How often each rule has fired, the most frequent ones first."""
    if not journal:
        return []
    counts = Counter(map(heading, journal)).most_common()
    lines = ['Fired:'] + bulleted('`%s` %s' % (name, counted(count, 'time')) for name, count in counts[:SHOWN])
    return lines + ['  and %d rules more' % (len(counts) - SHOWN)] * (len(counts) > SHOWN) + ['']


def end_lines(modules, state, ended, most):
    """Why the play has ended."""
    able = [rule for rule in modules.rules if playing.can(rule, state)]
    if not ended.is_stuck:
        first = next(rule for rule in able if not rule.spontaneous)
        return ['It ended since it fires at most %s; `%s` would be next.' % (counted(most, 'time'), heading(first))]
    lines = ['It ended since no rule can fire that is not spontaneous.']
    if able:
        return lines + ['Spontaneous rules that could:'] + bulleted('`%s`' % heading(rule) for rule in able[:SHOWN])
    if len(modules.rules) <= FEW:
        lines += [missing(rule, state) for rule in modules.rules]
    return lines


def missing(rule, state):
    """The first clause of a rule that doesn't hold."""
    clause = next(clause for clause in rule.clauses if not any(playing.holds(atom, state) for atom in clause))
    return 'Of `%s` this clause does not hold: `%s`.' % (heading(rule), ' | '.join(map(atom_text, clause)) or 'never')
