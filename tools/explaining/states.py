"""A plain account of a history that runs: its transactions, and the state at its end."""
import system
from system import LANES

from explaining.firings import held, possible_lines
from explaining.phrases import counted, listed

WAITING = {'uprq': 'requests to its parent', 'uprs': 'responses to its parent', 'down': 'from its parent',
           'req': 'requests of its processor', 'ans': 'answers to its processor'}


def told(protocol, state, history, numbers):
    """The lines for a history that runs to a state."""
    lines = ['The history runs: %s, of %s.'
             % (counted(len(history), 'firing'), counted(len(set(numbers)), 'transaction'))]
    lines += [regrouped(numbers)] + ending(state) + ['']
    return lines + object_accounts(state) + [''] + possible_lines(protocol, state)


def object_accounts(state):
    """What each object has at the end, line by line."""
    lines = []
    for number, objects in enumerate(state):
        lines.append('Line %d at the end:' % number)
        for place, here in enumerate(objects):
            lines += object_account(place, here)
    return lines


def regrouped(numbers):
    """What the blocks of the answer are."""
    places = {number: [place for place, other in enumerate(numbers) if other == number] for number in numbers}
    if all(own == list(range(own[0], own[0] + len(own))) for own in places.values()):
        return 'The transactions stand apart in the history, so each block is a part of it.'
    return 'Transactions interleave; the answer lists them as blocks, one whole after another, which lead to the same state.'


def ending(state, word='open', left='Still under way'):
    """Whether the state is quiet, and if not, what is still under way."""
    if system.quiet(state):
        return ['The end is `quiet`: no message waits but answers, and no lock is held.']
    places = [here for objects in state for here in objects]
    waiting = sum(len(here.lists[lane]) for here in places for lane in LANES if lane not in ('req', 'ans'))
    asked = sum(len(here.lists['req']) for here in places)
    locks = sum(lock is not None for here in places for lock in (here.up, here.down))
    parts = [counted(asked, 'request') + ' of a processor not taken'] * bool(asked)
    parts += [counted(waiting, 'message') + ' between objects'] * bool(waiting)
    parts += [counted(locks, 'lock') + ' held'] * bool(locks)
    return ['The end is `%s`. %s: %s.' % (word, left, listed(parts))]


def object_account(place, here):
    """Lines for one object: what it has, and what waits in its lists."""
    where = '' if here.parent is None else ' below %d' % here.parent
    has = ['%s is %s' % pair for pair in here.fields.items()] + ['its value is %d' % here.val]
    locks = ['its %slock is %s' % (side, held(lock)) for side, lock in (('up', here.up), ('down', here.down))
             if lock is not None]
    lines = ['  object %d, %s%s: %s' % (place, 'the root' if here.kind == 'root' else 'a ' + here.kind, where,
                                        '; '.join(has + locks))]
    if here.kind != 'leaf':
        lines.append('      grants: ' + listed('child %d %s' % pair for pair in here.dir.items()))
    for lane in LANES:
        if here.lists[lane]:
            items = ', '.join('%s:%d' % (item.id, item.value) for item in here.lists[lane])
            lines.append('      %s: %s' % (WAITING[lane], items))
    return lines
