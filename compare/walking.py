"""Numbers drawn from a seed, generated requests, and the walk of a single thread."""
from collections import Counter, namedtuple

import setup
import system
from reading import Fault, Firing

# The firings of a walk in order, and the state in which it ends.
Walked = namedtuple('Walked', 'journal state')


def draws(seed):
    """The draws from a seed, without end."""
    number = seed % 65536
    while True:
        number = (number * 25173 + 13849) % 65536
        yield number // 16


# Generated requests

def leaves(nodes):
    return [place for place, node in enumerate(nodes) if node.kind == 'leaf']


def requests_of(work):
    return sum(len(entry[4]) for entry in work.entries)


def generated(protocol, nodes, work, count, seed):
    """Entries of one generated request each; three draws choose the leaf, the line and the message."""
    ids = [name for name, cls in protocol.messages.items() if cls == 'ext_req']
    its_draws, places = draws(seed), leaves(nodes)
    for value in range(1, count + 1) if ids else ():
        where = places[next(its_draws) % len(places)]
        line = next(its_draws) % work.lines
        message = ids[next(its_draws) % len(ids)]
        yield where, work.start, line, work.start, [(message, value, work.start)]


def made(protocol, nodes, work, count, seed):
    """A lawful work with so many generated requests after its own, or the fault that it has then."""
    result = work._replace(entries=work.entries + list(generated(protocol, nodes, work, count, seed)))
    if requests_of(result) > setup.REQUEST_LIMIT:
        raise Fault('setup', work.start, 'requests')
    if setup.starts(result, nodes) > setup.START_LIMIT:
        raise Fault('setup', work.start, 'starts')
    return result


# The walk

class Walker:
    """A walk on its way: the firings so far, the state, and the first ready firing of each object on each line.

    A firing changes the lists of its object, of its parent and of its children alone, so only these are looked at anew.
    Where the walker is plain, all are.
    """

    def __init__(self, protocol, nodes, work, is_plain=False):
        self.protocol, self.nodes, self.self_count = protocol, nodes, work.self_count
        self.state = system.start_state(protocol, nodes, work)
        self.positions = [(line, place) for line in range(work.lines) for place in range(len(nodes))]
        self.journal, self.self_firings, self.is_plain = [], Counter(), is_plain
        self.ready = {position: self.first_ready(*position) for position in self.positions}

    def first_ready(self, line, place):
        """The first firing of an object that is possible and not spent, with what it does, or None."""
        here = self.state[line][place]
        asking = [None] if here.kind == 'leaf' else here.children
        for rule in self.protocol.kinds[here.kind].rules.values():
            side = rule.take[0]
            if side == 'none' and self.self_firings[line, place] >= self.self_count:
                continue
            if not self.is_plain and (side == 'parent' and not here.lists['down'] or side == 'kids' and not here.down):
                continue
            for me in asking if side == 'me' else [None]:
                if not self.is_plain and me is not None and not self.state[line][me].lists['uprq']:
                    continue
                firing = Firing(line, place, rule.name, me)
                plan = system.plan(self.protocol, self.state, firing)
                if plan is not None:
                    return firing, plan, side
        return None

    def near(self, line, place):
        here = self.state[line][place]
        around = [place] + here.children + ([] if here.parent is None else [here.parent])
        return self.positions if self.is_plain else [(line, other) for other in around]

    def turn(self, draw):
        """Makes the first ready firing from the drawn position on, and answers whether there is one."""
        first = draw % len(self.positions)
        for position in self.positions[first:] + self.positions[:first]:
            if self.ready[position] is None:
                continue
            firing, plan, side = self.ready[position]
            system.fire(self.state, firing, plan, len(self.journal))
            self.journal.append(firing)
            self.self_firings[position] += side == 'none'
            for other in self.near(*position):
                self.ready[other] = self.first_ready(*other)
            return True
        return False


def walk(protocol, nodes, work, seed, is_plain=False):
    """The walk that a seed gives, to its end."""
    walker, its_draws = Walker(protocol, nodes, work, is_plain), draws(seed)
    while walker.turn(next(its_draws)):
        pass
    return Walked(walker.journal, walker.state)


def answers_of(state):
    """How many answers the processors have."""
    return sum(len(here.lists['ans']) for objects in state for here in objects)
