"""Random protocols, trees, works and histories, and the documents that they make."""
import reading
import system
from shipped import SHIPPED
from texts import data, layout

VALUES = ['val', 'msg', 'kept', 'rs', '0']

# Rules by which messages go through a tree and back: take, free, lock, and where they send.
FLOWS = {
    'root': [('me', '', '', 'me'), ('me', '', 'lock down child', 'kids'), ('me', '', 'lock down child', 'others'),
             ('kids', 'free down', '', 'me'), ('kids', '', 'lock up parent', 'kids')],
    'mid': [('me', '', 'lock up child', 'parent'), ('me', '', 'lock down child', 'others'),
            ('parent', '', 'lock down parent', 'kids'), ('parent', 'free up', '', 'me'),
            ('parent', 'free up', 'lock down child', 'kids'), ('kids', 'free down', '', 'parent'),
            ('kids', '', 'lock up child', 'others')],
    'leaf': [('me', '', 'lock up child', 'parent'), ('me', '', '', 'parent'), ('parent', '', '', 'parent'),
             ('parent', '', '', 'parent'), ('parent', 'free up', '', 'me')],
}


class Writer:
    """Writes random protocols as tokens; messages are chosen so that takes often fit sends."""

    def __init__(self, rng, loose=0.05):
        self.rng, self.loose = rng, loose
        self.guards = rng.choice([[0, 0, 0, 1], [0, 0, 0, 1, 1, 2, 3]])
        pool = ['I', 'S', 'M', 'E', 'a', 'b2', 'x_', 'val2', 'Root', 'st']
        rng.shuffle(pool)
        self.statuses = pool[:rng.randint(2, 4)]
        self.messages = []
        for cls in reading.CLASSES:
            for _ in range(rng.choice([1, 1, 1, 1, 1, 2])):
                self.messages.append(('m%d' % len(self.messages), cls))
        if rng.random() < 0.1:
            self.messages = self.messages[:rng.randint(1, 5)]
        rng.shuffle(self.messages)

    def chance(self, p):
        return self.rng.random() < p

    def rare(self):
        """Whether to write what can seldom or never fire."""
        return self.rng.random() < self.loose

    def message(self, *classes):
        """The name of a message of one of these classes, and now and then of any."""
        fit = [name for name, cls in self.messages if cls in classes]
        if not fit or self.chance(0.04):
            fit = [name for name, _ in self.messages]
        return self.rng.choice(fit)

    def some(self):
        """A set of statuses in any order, mostly large."""
        order = list(self.statuses)
        self.rng.shuffle(order)
        return order[:max(self.rng.randint(1, len(order)), self.rng.randint(1, len(order)))]

    def value(self, take):
        fit = {'me': ['val', 'msg', '0'], 'parent': ['val', 'msg', 'val', 'msg', 'kept', '0'],
               'kids': ['val', 'kept', 'rs', '0'], 'none': ['val', '0']}[take]
        return self.rng.choice(VALUES if self.chance(0.07) else fit)

    def atom(self, kind, take, fields):
        form = self.rng.choice(['field', 'field', 'me', 'kids', 'others', 'asked'])
        if form == 'field' and fields:
            return [self.rng.choice(fields), 'in'] + self.some()
        if form == 'me' and (kind != 'leaf' and take != 'none' or self.rare()):
            return ['me', 'in'] + self.some()
        if form == 'asked' and (take in ('parent', 'kids') or self.rare()):
            return ['asked', self.message('ext_req', 'up_req', 'down_req')]
        if form == 'others' and (take != 'none' or self.rare()):
            return ['others', self.rng.choice(['all', 'any'])] + self.some()
        return ['kids', self.rng.choice(['all', 'any'])] + self.some()

    def assigns(self, kind, take, fields):
        places = list(fields) + ['val'] + (['me'] if kind != 'leaf' and take != 'none' or self.rare() else [])
        places += ['targets'] if take == 'kids' or self.rare() else []
        self.rng.shuffle(places)
        tokens = []
        for place in places[:self.rng.choice([0, 1, 1, 2, 3, 5])]:
            what = self.value(take) if place == 'val' else self.rng.choice(self.statuses)
            tokens += [',' if tokens else 'set', place, ':=', what]
        return tokens

    def direction(self, kind, take):
        """Where a rule without a flow sends."""
        to = self.rng.choice(['me', 'parent', 'kids', 'others'] if kind != 'leaf' or self.rare()
                             else ['me', 'parent'])
        if to == 'parent' and kind == 'root' and not self.rare():
            to = 'kids'
        if take == 'none' and to in ('me', 'others') and not self.rare():
            to = 'parent' if kind != 'root' else 'kids'
        return to

    def send(self, kind, take, to):
        if to == 'me':
            return ['me', self.message('ext_rsp' if kind == 'leaf' else 'down_rsp'), self.value(take)]
        if to == 'parent':
            response = self.chance(0.8 if take in ('parent', 'kids') else 0.2)
            return ['parent', self.message('up_rsp' if response else 'up_req'), self.value(take)]
        return [to, 'in'] + self.some() + [self.message('down_req'), self.value(take)]

    def take(self, kind):
        """What a rule without a flow takes."""
        form = self.rng.choice(['me'] * 4 + ['parent'] * 4 + ['kids'] * 4 + ['none'])
        if kind == 'leaf' and form == 'kids' and not self.rare():
            form = 'parent'
        if kind == 'root' and form == 'parent' and not self.rare():
            form = 'kids'
        return form

    def taken(self, kind, take):
        if take == 'none':
            return ['none']
        classes = {'me': ('ext_req',) if kind == 'leaf' else ('up_req',),
                   'parent': self.rng.choice([('down_req',), ('down_rsp',)]), 'kids': ('up_rsp',)}[take]
        return [take, self.message(*classes)]

    def locks(self, kind, take):
        origins = ['child', 'parent', 'self'] if take != 'none' or self.rare() else ['parent', 'self']
        side = self.rng.choice(['up', 'down', 'down'] if kind != 'leaf' else ['up', 'up', 'down'])
        return ['lock', side, self.rng.choice(origins)]

    def rule(self, kind, name, fields, flow=None):
        """A random rule; a flow gives its take, locks and where it sends."""
        if flow is not None:
            take, freed, locks, to = flow
        else:
            take = self.take(kind)
            freed = ['free', self.rng.choice(['up', 'down'])] if self.chance(0.3) else []
            locks = self.locks(kind, take) if self.chance(0.45) else []
            to = self.direction(kind, take) if self.chance(0.8) else None
        needs = ['any'] * 10 + ['free', 'child', 'parent', 'self']
        tokens = ['rule', name, 'take'] + self.taken(kind, take)
        tokens += ['need', 'up', self.rng.choice(needs), 'down', self.rng.choice(needs)]
        for k in range(self.rng.choice(self.guards)):
            tokens += ['when' if k == 0 else ','] + self.atom(kind, take, fields)
        tokens += self.assigns(kind, take, fields) + freed + locks
        if to is not None:
            tokens += ['send'] + self.send(kind, take, to)
        return tokens + ['end']

    def kind(self, kind):
        tokens = ['kind', kind]
        fields = self.rng.sample(['st', 'own', 'f3', 'I', 'm0'], self.rng.choice([0, 1, 1, 2, 3]))
        for name in fields:
            tokens += ['field', name, 'init', self.rng.choice(self.statuses)]
        if kind != 'leaf':
            tokens += ['dir', 'init', self.rng.choice(self.statuses)]
        flows = [None] * self.rng.randint(1, 4)
        if self.chance(0.8):
            flows += [(take, free.split(), lock.split(), to) for take, free, lock, to in FLOWS[kind]]
            self.rng.shuffle(flows)
        for k, flow in enumerate(flows):
            tokens += self.rule(kind, 'r%d' % k, fields, flow)
        return tokens + ['end']

    def protocol(self):
        tokens = ['protocol', 'p%d' % self.rng.randint(0, 9), 'status'] + self.statuses
        for name, cls in self.messages:
            tokens += ['message', name, cls]
        for kind in ('root', 'mid', 'leaf'):
            tokens += self.kind(kind)
        return tokens + ['end']


def node(rng, level, deepest, room):
    """A random node below the root, as tokens; `room` holds how many objects may still come."""
    room[0] -= 1
    if level >= deepest or room[0] <= 0 or rng.random() < 0.5:
        return ['leaf']
    return ['mid'] + nodes(rng, level + 1, deepest, room)


def nodes(rng, level, deepest, room):
    tokens = ['('] + node(rng, level, deepest, room)
    for _ in range(rng.choice([0, 1, 1, 2])):
        if room[0] > 0:
            tokens += node(rng, level, deepest, room)
    return tokens + [')']


def tree(rng, deepest, objects):
    return ['tree', 'root'] + nodes(rng, 2, deepest, [objects - 1])


def work(rng, protocol, kinds, lines, most):
    """A random work for a tree whose objects have these kinds, as tokens."""
    tokens = ['work', 'lines', str(lines), 'self', str(rng.randint(0, 3))]
    ids = [name for name, cls in protocol.messages.items() if cls == 'ext_req']
    leaves = [k for k, kind in enumerate(kinds) if kind == 'leaf']
    for _ in range(rng.randint(1, most)):
        tokens += ['at', str(rng.choice(leaves)), 'line', str(rng.randrange(lines))]
        for _ in range(rng.randint(0, 3) if ids else 0):
            tokens += [rng.choice(ids), rng.choice(['0', '1', '5', '007', '18446744073709551615'])]
    return tokens + ['end']


# Random histories

def candidates(protocol, state, line, where):
    """The firings that could be tried at an object."""
    here = state[line][where]
    for rule in protocol.kinds[here.kind].rules.values():
        for me in here.children if rule.take[0] == 'me' and here.kind != 'leaf' else [None]:
            yield reading.Firing(line, where, rule.name, me)


WEIGHTS = {'kids': 40, 'parent': 20, 'me': 6, 'none': 1}


def possible_somewhere(rng, protocol, state):
    """A possible firing, mostly one that takes messages, or None."""
    places = [(line, where) for line in range(len(state)) for where in range(len(state[0]))]
    rng.shuffle(places)
    found, weights = [], []
    for k, (line, where) in enumerate(places):
        if found and k >= 12:
            break
        for firing in candidates(protocol, state, line, where):
            if system.plan(protocol, state, firing) is not None:
                found.append(firing)
                take = protocol.kinds[state[line][where].kind].rules[firing.rule].take[0]
                weights.append(WEIGHTS[take])
    return rng.choices(found, weights)[0] if found else None


def walk(rng, protocol, state, most):
    """A random history from the state, which it changes."""
    history = []
    while len(history) < most:
        firing = possible_somewhere(rng, protocol, state)
        if firing is None:
            break
        system.fire(state, firing, system.plan(protocol, state, firing), len(history))
        history.append(firing)
    return history


def any_firing(rng, protocol, state):
    """A firing that may name anything."""
    names = sorted({name for part in protocol.kinds.values() for name in part.rules})
    line = rng.choice([0, 0, len(state) - 1, len(state), 4294967295])
    where = rng.randrange(len(state[0]) + 1)
    me = rng.choice([None, None, 0, 1, 2, len(state[0]), 4294967295])
    return reading.Firing(line, where, rng.choice(names), me)


def last_firing(rng, protocol, state):
    """A firing to stand last: mostly one that could be tried."""
    if rng.random() < 0.2:
        return any_firing(rng, protocol, state)
    found = list(candidates(protocol, state, rng.randrange(len(state)), rng.randrange(len(state[0]))))
    if not found:
        return any_firing(rng, protocol, state)
    firing = rng.choice(found)
    if rng.random() < 0.1:
        firing = firing._replace(me=rng.choice([None, 0, 1, 2]))
    elif firing.me is not None and rng.random() < 0.4:
        asking = [k for k, here in enumerate(state[firing.line]) if here.lists['uprq']]
        firing = firing._replace(me=rng.choice(asking or [None]))
    return firing


def firing_tokens(history):
    tokens = []
    for f in history:
        tokens += [str(f.line), str(f.object), f.rule] + ([] if f.me is None else ['from', str(f.me)])
    return tokens


def read_setup(text):
    """The protocol, nodes and work of a text that reads."""
    protocol, nodes_read, work_read, _ = reading.Reader(text).document()
    return protocol, nodes_read, work_read


def with_histories(rng, head, most, variants):
    """Documents with a random history after these tokens, and with other last firings."""
    text = layout(rng, head)
    protocol, nodes_read, work_read = read_setup(text + ' history end')
    state = system.start_state(protocol, nodes_read, work_read)
    history = walk(rng, protocol, state, most)
    if not any(part.rules for part in protocol.kinds.values()):
        yield data(text + ' history end')
        return
    yield data(text + ' ' + layout(rng, ['history'] + firing_tokens(history) + ['end']))
    for _ in range(variants):
        cut = rng.choice([len(history), len(history), rng.randint(0, len(history))])
        state = system.start_state(protocol, nodes_read, work_read)
        system.replay(protocol, state, history[:cut])
        last = [last_firing(rng, protocol, state) for _ in range(rng.choice([1, 1, 2]))]
        yield data(text + ' history ' + ' '.join(firing_tokens(history[:cut] + last)) + ' end')


def random_head(rng):
    """A random protocol, tree and work as tokens."""
    tokens = Writer(rng).protocol()
    tree_tokens = tree(rng, rng.randint(2, 4), rng.randint(2, 8))
    protocol = reading.Reader(' '.join(tokens)).protocol()
    kinds = ['root'] + [t for t in tree_tokens[2:] if t in ('leaf', 'mid')]
    return tokens + tree_tokens + work(rng, protocol, kinds, rng.randint(1, 3), 5)


def random_protocols(rng, number):
    """Protocols with every mixture of rule parts, and histories on them."""
    made = 0
    while made < number:
        for document in with_histories(rng, random_head(rng), rng.choice([6, 15, 30]), 6):
            made += 1
            yield document


def singles(rng, number):
    """Protocols with leaf rules that answer at once, or nearly so."""
    for _ in range(number):
        count = rng.randint(0, 5)
        tokens = 'protocol p status I S message Ld ext_req message LdR ext_rsp message Up up_req kind root'.split()
        tokens += 'dir init I end kind mid dir init I end kind leaf field st init S'.split()
        for k in range(count):
            tokens += ['rule', 'r%d' % k, 'take', 'me', rng.choice(['Ld'] * 49 + ['Up'])]
            tokens += ['need', 'up', rng.choice(['free'] * 49 + ['any'])]
            tokens += ['down', rng.choice(['free'] * 49 + ['any'])]
            tokens += rng.choice([[], [], ['when', 'st', 'in', 'S', 'I'], ['when', 'st', 'in', 'S'],
                                  ['when', 'st', 'in', 'I', ',', 'st', 'in', 'I', 'S']])
            if rng.random() < 0.02:
                tokens += [',' if 'when' in tokens[-9:] else 'when'] + rng.choice(
                    ['kids all I', 'others all I', 'me in I', 'asked Ld', 'others any S']).split()
            tokens += rng.choice([[], [], 'set st := I'.split(), 'set val := msg'.split(), 'set st := S'.split(),
                                  'set val := 0 , st := S'.split(), rng.choice(
                                      ['set me := I', 'set val := kept', 'set val := rs', 'set targets := I']).split()
                                  if rng.random() < 0.1 else []])
            tokens += rng.choice([[]] * 98 + ['free up'.split(), 'lock up child'.split()])
            tokens += rng.choice([['send', 'me', rng.choice(['LdR'] * 49 + ['Ld']), rng.choice(['val', 'msg', '0'])]] * 98
                                 + [[], 'send parent Up 0'.split()])
            tokens += ['end']
        tokens += ['end', 'end'] + tree(rng, 3, 6)
        protocol = reading.Reader(' '.join(tokens[:tokens.index('tree')])).protocol()
        kinds = ['root'] + [t for t in tokens[tokens.index('tree') + 2:] if t in ('leaf', 'mid')]
        tokens += work(rng, protocol, kinds, rng.randint(1, 3), 6)
        yield from with_histories(rng, tokens, 20, rng.choice([0, 1]))


def shipped_walks(rng, number):
    """Random histories of the four shipped protocols on trees of three and four levels."""
    made = 0
    while made < number:
        name = rng.choice(sorted(SHIPPED))
        tree_tokens = deep_tree(rng)
        kinds = ['root'] + [t for t in tree_tokens[2:] if t in ('leaf', 'mid')]
        protocol = reading.Reader(SHIPPED[name]).protocol()
        head = ['use', name] + tree_tokens + work(rng, protocol, kinds, rng.randint(1, 4), 12)
        for document in with_histories(rng, head, rng.choice([20, 60, 120]), 3):
            made += 1
            yield document


def deep_tree(rng):
    """A tree of three or four levels with up to a dozen objects."""
    def mid(level, deepest):
        if level == deepest:
            return ['leaf']
        tokens = ['mid', '('] + mid(level + 1, deepest)
        for _ in range(rng.choice([0, 1, 1])):
            tokens += rng.choice([['leaf'], mid(level + 1, deepest)])
        return tokens + [')']
    deepest = rng.choice([3, 4])
    tokens = ['tree', 'root', '('] + mid(2, deepest)
    for _ in range(rng.choice([0, 1, 1, 2])):
        tokens += rng.choice([['leaf'], mid(2, deepest)])
    return tokens + [')']
