"""The modules of an accepted protocol on a tree: for each firing that can be named one rule, over the registers and queues
of one line, and their text."""
from playing import Action, Atom, Deq, Enq, Front, ModRule, Modules, Number, Put, Register

# Whom a lock is held for, as a number; a child object c is 3 + c.
FREE, OWN, PARENT, PROCESSOR = 0, 1, 2, 3
NEEDED = {'free': FREE, 'self': OWN, 'parent': PARENT}
SIDES = {'up': 'u', 'down': 'd'}


def origin_number(origin):
    """The number of a lock's origin: of a child by its object, or of a word."""
    return PROCESSOR + origin if isinstance(origin, int) else {'self': OWN, 'parent': PARENT, 'cpu': PROCESSOR}[origin]


def children_of(nodes, place):
    return [child for child, node in enumerate(nodes) if node.parent == place]


# The layout

def start_values(protocol, nodes):
    """The registers of one line in order, each with its start value."""
    values = {}
    for place, node in enumerate(nodes):
        part = protocol.kinds[node.kind]
        for number, status in enumerate(part.fields.values()):
            values['f%d_%d' % (number, place)] = protocol.statuses.index(status)
        for name in ('v', 'uo', 'ui', 'uv', 'do', 'di', 'dv'):
            values['%s_%d' % (name, place)] = 0
        for child in children_of(nodes, place):
            values['d_%d' % child] = protocol.statuses.index(part.dir)
            values['w_%d' % child] = 0
    return values


def queues_of(nodes):
    """The queues of one line in order."""
    for place, node in enumerate(nodes):
        names = ([] if node.kind == 'root' else ['qr', 'qs', 'qd']) + (['xr', 'xa'] if node.kind == 'leaf' else [])
        for name in names:
            yield '%s_%d' % (name, place)


def lock_registers(side, place):
    """The registers of a lock: its origin, the id and the value of its request."""
    return ['%s%s_%d' % (SIDES[side], part, place) for part in 'oiv']


# Rules

class Emitter:
    """Writes one rule of a protocol at an object as a module rule, with its child where it takes from one."""

    def __init__(self, protocol, nodes, place, rule, child):
        self.protocol, self.place, self.rule, self.child = protocol, place, rule, child
        self.kind, self.children = nodes[place].kind, children_of(nodes, place)
        self.statuses, self.ids = protocol.statuses, list(protocol.messages)
        self.fields = list(protocol.kinds[self.kind].fields)
        self.side, self.taken = rule.take
        self.queue = self.queue_taken_from()
        # The register whose number tells who the requester is, where it isn't fixed.
        self.asker = {'parent': 'uo_%d', 'kids': 'do_%d'}[self.side] % place if self.side in ('parent', 'kids') else None
        self.others = [other for other in self.children if other != child]

    def queue_taken_from(self):
        if self.side == 'parent':
            return 'qd_%d' % self.place
        if self.side == 'me':
            return 'xr_%d' % self.place if self.kind == 'leaf' else 'qr_%d' % self.child
        return None

    def module_rule(self):
        return ModRule(self.place, self.rule.name, self.child, self.side == 'none', self.clauses(), self.actions())

    # Clauses

    def clauses(self):
        clauses = self.of_take() + self.of_need('up', self.rule.up) + self.of_need('down', self.rule.down)
        for atom in self.rule.guard:
            clauses += self.of_atom(*atom)
        if self.rule.send and self.rule.send[0] in ('kids', 'others'):
            clauses += self.of_atom(self.rule.send[0], 'any', self.rule.send[1])
        return clauses

    def of_take(self):
        if self.side in ('me', 'parent'):
            return [[Atom('head', self.queue, self.ids.index(self.taken))]]
        if self.side == 'none':
            return []
        heads = [[Atom('=', 'w_%d' % child, 0), Atom('head', 'qs_%d' % child, self.ids.index(self.taken))]
                 for child in self.children]
        return heads + [[Atom('=', 'w_%d' % child, 1) for child in self.children]]

    def of_need(self, side, need):
        if need == 'any':
            return []
        origin = lock_registers(side, self.place)[0]
        if need != 'child':
            return [[Atom('=', origin, NEEDED[need])]]
        numbers = [PROCESSOR] if self.kind == 'leaf' else [PROCESSOR + child for child in self.children]
        return [[Atom('=', origin, number) for number in numbers]]

    def of_atom(self, name, more, chosen):
        """The clauses of a condition."""
        if name == 'asked':
            register = lock_registers('up' if self.side == 'parent' else 'down', self.place)[1]
            return [[Atom('=', register, self.ids.index(chosen))]]
        if name == 'field':
            return [self.one_of('f%d_%d' % (self.fields.index(more), self.place), chosen)]
        if name == 'me':
            if self.asker is None:
                return [self.entry(self.child, chosen)]
            return [[self.asks('!=', child)] + self.entry(child, chosen) for child in self.children]
        if name == 'kids' or self.asker is None:
            among = self.children if name == 'kids' else self.others
            entries = [self.entry(child, chosen) for child in among]
            return entries if more == 'all' else [sum(entries, [])]
        if more == 'all':
            return [[self.asks('=', child)] + self.entry(child, chosen) for child in self.children]
        return [[self.asks('!=', child)] + sum([self.entry(other, chosen) for other in self.children if other != child], [])
                for child in self.children]

    def one_of(self, register, chosen):
        """One atom for each of these statuses, in order of declaration."""
        return [Atom('=', register, number) for number in self.numbers(chosen)]

    def numbers(self, chosen):
        return [number for number, status in enumerate(self.statuses) if status in chosen]

    def entry(self, child, chosen):
        return self.one_of('d_%d' % child, chosen)

    def asks(self, test, child):
        return Atom(test, self.asker, PROCESSOR + child)

    # Actions

    def actions(self):
        return self.takes() + self.sets() + self.frees() + self.locks() + self.sends()

    def takes(self):
        if self.side == 'kids':
            return [Action([Atom('=', 'w_%d' % child, 1)], Deq('qs_%d' % child)) for child in self.children]
        return [] if self.queue is None else [Action([], Deq(self.queue))]

    def sets(self):
        actions = []
        for place, what in self.rule.sets:
            if place == 'val':
                actions += self.with_value([], what, lambda value: Put('v_%d' % self.place, value))
            elif place in self.fields:
                actions.append(Action([], Put('f%d_%d' % (self.fields.index(place), self.place), self.status(what))))
        sets = dict(self.rule.sets)
        if 'targets' in sets:
            actions += [Action([Atom('=', 'w_%d' % child, 1)], Put('d_%d' % child, self.status(sets['targets'])))
                        for child in self.children]
        if 'me' in sets:
            actions += [Action(condition, Put('d_%d' % child, self.status(sets['me'])))
                        for child, condition in self.requesters()]
        return actions

    def status(self, name):
        return Number(self.statuses.index(name))

    def requesters(self):
        """The children that may be the requester, each with the condition that it is."""
        if self.asker is None:
            return [(self.child, [])]
        return [(child, [self.asks('=', child)]) for child in self.children]

    def with_value(self, condition, name, act):
        """The actions that do this with a named value; for that of the least awaited child one for each child."""
        if name != 'rs':
            return [Action(condition, act(self.plain_value(name)))]
        actions = []
        for place, child in enumerate(self.children):
            least = [Atom('=', 'w_%d' % child, 1)] + [Atom('=', 'w_%d' % other, 0) for other in self.children[:place]]
            actions.append(Action(condition + least, act(Front('qs_%d' % child))))
        return actions

    def plain_value(self, name):
        if name == 'val':
            return Register('v_%d' % self.place)
        if name == 'kept':
            return Register(lock_registers('up' if self.side == 'parent' else 'down', self.place)[2])
        return Number(0) if name == '0' else Front(self.queue)

    def frees(self):
        if self.rule.free is None:
            return []
        registers = lock_registers(self.rule.free, self.place)
        if self.rule.free == 'down':
            registers += ['w_%d' % child for child in self.children]
        return [Action([], Put(register, Number(0))) for register in registers]

    def locks(self):
        if self.rule.lock is None:
            return []
        side, origin = self.rule.lock
        values = self.kept_by_lock(origin)
        actions = [Action([], Put(*pair)) for pair in zip(lock_registers(side, self.place), values)]
        if side == 'down':
            actions += [Action(condition, Put('w_%d' % child, Number(1))) for child, condition in self.targets()]
        return actions

    def kept_by_lock(self, origin):
        """The origin, the id and the value that a lock gets."""
        if self.side == 'parent' and self.protocol.messages[self.taken] not in ('ext_req', 'up_req', 'down_req'):
            return [Register(register) for register in lock_registers('up', self.place)]
        number = origin_number(origin) if origin != 'child' else PROCESSOR + (self.child or 0)
        if self.side == 'none':
            return [Number(number), Number(self.ids.index(self.rule.send[2])), self.plain_value(self.rule.send[3])]
        return [Number(number), Number(self.ids.index(self.taken)), Front(self.queue)]

    def targets(self):
        """The children that may be targets, once for each status that makes them one, with the condition that it does."""
        to, chosen, _, _ = self.rule.send
        for child in self.others if to == 'others' else self.children:
            for number in self.numbers(chosen):
                is_other = [self.asks('!=', child)] if to == 'others' and self.asker else []
                yield child, is_other + [Atom('=', 'd_%d' % child, number)]

    def sends(self):
        if self.rule.send is None:
            return []
        _, _, message, value = self.rule.send
        actions = []
        for queue, condition in self.goals():
            actions += self.with_value(condition, value, lambda its: Enq(queue, self.ids.index(message), its))
        return actions

    def goals(self):
        """The queues to which the rule may send, each with its condition."""
        to, _, message, _ = self.rule.send
        if to == 'parent':
            lane = 'qs' if self.protocol.messages[message] == 'up_rsp' else 'qr'
            return [('%s_%d' % (lane, self.place), [])]
        if to == 'me' and self.kind == 'leaf':
            return [('xa_%d' % self.place, [])]
        chosen = self.requesters() if to == 'me' else self.targets()
        return [('qd_%d' % child, condition) for child, condition in chosen]


def modules_of(protocol, nodes):
    """The modules of a disciplined protocol on a lawful tree."""
    rules = []
    for place, node in enumerate(nodes):
        for rule in protocol.kinds[node.kind].rules.values():
            from_child = rule.take[0] == 'me' and node.kind != 'leaf'
            for child in children_of(nodes, place) if from_child else [None]:
                rules.append(Emitter(protocol, nodes, place, rule, child).module_rule())
    return Modules(protocol.name, start_values(protocol, nodes), list(queues_of(nodes)), rules)


# States of a line as states of its modules

def image(protocol, objects):
    """What registers and queues hold for a line in this state."""
    ids = list(protocol.messages)
    registers, queues = {}, {}
    for place, here in enumerate(objects):
        for number, status in enumerate(here.fields.values()):
            registers['f%d_%d' % (number, place)] = protocol.statuses.index(status)
        registers['v_%d' % place] = here.val
        for side, lock in (('up', here.up), ('down', here.down)):
            values = (FREE, 0, 0) if lock is None else (origin_number(lock.origin), ids.index(lock.id), lock.value)
            registers.update(zip(lock_registers(side, place), values))
        for child in here.children:
            registers['d_%d' % child] = protocol.statuses.index(here.dir[child])
            registers['w_%d' % child] = int(here.down is not None and child in here.down.awaited)
        lanes = [] if here.kind == 'root' else [('qr', 'uprq'), ('qs', 'uprs'), ('qd', 'down')]
        lanes += [('xr', 'req'), ('xa', 'ans')] if here.kind == 'leaf' else []
        for name, lane in lanes:
            queues['%s_%d' % (name, place)] = [(ids.index(item.id), item.value) for item in here.lists[lane]]
    return registers, queues


# The text

def atom_text(atom):
    return 'head %s = %d' % atom[1:] if atom.test == 'head' else '%s %s %d' % (atom.name, atom.test, atom.number)


def value_text(value):
    if isinstance(value, Number):
        return str(value.number)
    return value.name if isinstance(value, Register) else 'value ' + value.queue


def action_text(action):
    act = action.act
    if isinstance(act, Deq):
        text = 'deq ' + act.queue
    elif isinstance(act, Put):
        text = '%s := %s' % (act.register, value_text(act.value))
    else:
        text = 'enq %s %d %s' % (act.queue, act.id, value_text(act.value))
    return ('if %s ' % ' and '.join(map(atom_text, action.condition)) if action.condition else '') + text


def rule_text(rule):
    text = 'rule %d %s' % (rule.object, rule.name)
    text += '' if rule.child is None else ' from %d' % rule.child
    text += ' spontaneous' if rule.spontaneous else ''
    if rule.clauses:
        text += ' when ' + ', '.join(' | '.join(map(atom_text, clause)) or 'never' for clause in rule.clauses)
    if rule.actions:
        text += ' do ' + ', '.join(map(action_text, rule.actions))
    return text + ' end'


def modules_lines(modules):
    """The canonical text of modules, as lines."""
    return (['modules ' + modules.name] + ['reg %s %d' % register for register in modules.registers.items()]
            + ['queue ' + queue for queue in modules.queues] + [rule_text(rule) for rule in modules.rules] + ['end'])
