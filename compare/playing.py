"""Modules, their reader, and what they do: registers, queues, and rules that fire one at a time."""
from collections import deque, namedtuple

from reading import GREATEST_NUMBER, GREATEST_VALUE, Choice, Reader, new, number, signs, used, value_of, within, words

# Registers have start values, by name; queues are names; of rules and all else the order is that of the text.
Modules = namedtuple('Modules', 'name registers queues rules')
# The child is None where the rule has none.
ModRule = namedtuple('ModRule', 'object name child spontaneous clauses actions')
# A test is `=` or `!=` of a register and a number, or `head` of a queue and an id.
Atom = namedtuple('Atom', 'test name number')
Action = namedtuple('Action', 'condition act')
Deq = namedtuple('Deq', 'queue')
Put = namedtuple('Put', 'register value')
Enq = namedtuple('Enq', 'queue id value')
# A value is a number, or the text of a register, or that of a queue after the word `value`.
Number = namedtuple('Number', 'number')
Register = namedtuple('Register', 'name')
Front = namedtuple('Front', 'queue')

# What registers and queues hold, by name; an item of a queue is an id and a value.
State = namedtuple('State', 'registers queues')
Played = namedtuple('Played', 'fired is_stuck')

DEFAULT_COUNT = 100000
AFTER_NAME = ('spontaneous', 'when', 'do', 'end')


# Reading

class AfterRepeated(Choice):
    """What stands after the name of a rule that is there already without a child: but for `from`, it is the repetition."""

    def __init__(self):
        super().__init__('repeated')

    def fits(self, token, limits, fresh):
        return not fresh and token.kind != 'end'


class Child(Choice):
    """The number of a child, which no rule of this object and name has."""

    def __init__(self, known):
        super().__init__('number', bound=GREATEST_NUMBER, what='child')
        self.known = known

    def fits(self, token, limits, fresh):
        if not super().fits(token, limits, fresh):
            return False
        return not fresh or not within(token.text, self.bound) or value_of(token.text) not in self.known


def object_number(what):
    return number(what, GREATEST_NUMBER)


def value_number(what):
    return number(what, GREATEST_VALUE)


class ModuleReader(Reader):
    """Reads modules and a feed token by token."""

    def __init__(self, text):
        super().__init__(text)
        self.registers, self.queues = {}, {}
        # The children of the rules so far, by object and name.
        self.children = {}

    def modules(self):
        self.word('modules')
        name, names = self.step(new((), 'modules')), set()
        then = self.word('reg', 'queue', 'rule', 'end')
        while then == 'reg':
            register = self.step(new(names, 'register'))
            names.add(register)
            self.registers[register] = value_of(self.step(value_number('start value')))
            then = self.word('reg', 'queue', 'rule', 'end')
        while then == 'queue':
            queue = self.step(new(names, 'queue'))
            names.add(queue)
            self.queues[queue] = None
            then = self.word('queue', 'rule', 'end')
        rules = []
        while then == 'rule':
            rules.append(self.module_rule())
            then = self.word('rule', 'end')
        return Modules(name, self.registers, list(self.queues), rules)

    def module_rule(self):
        place = value_of(self.step(object_number('object')))
        name = self.step(new((), 'rule'))
        known = self.children.setdefault((place, name), set())
        child = None
        then = self.step(words('from'), AfterRepeated() if None in known else words(*AFTER_NAME))
        if then == 'from':
            child = value_of(self.step(Child(known)))
            then = self.word(*AFTER_NAME)
        known.add(child)
        is_spontaneous = then == 'spontaneous'
        if is_spontaneous:
            then = self.word('when', 'do', 'end')
        clauses, actions = [], []
        if then == 'when':
            then = self.clauses(clauses)
        if then == 'do':
            self.actions(actions)
        return ModRule(place, name, child, is_spontaneous, clauses, actions)

    def clauses(self, clauses):
        """Reads the clauses and answers the word after them."""
        while True:
            first = self.step(used(self.registers, 'register'), words('head', 'never'))
            if first == 'never':
                clauses.append([])
                then = self.step(signs(','), words('do', 'end'))
            else:
                atoms, then = [self.atom(first)], '|'
                while then == '|':
                    then = self.step(signs('|', ','), words('do', 'end'))
                    if then == '|':
                        atoms.append(self.atom(self.step(used(self.registers, 'register'), words('head'))))
                clauses.append(atoms)
            if then != ',':
                return then

    def atom(self, first):
        """Reads the rest of an atom."""
        if first == 'head':
            queue = self.step(used(self.queues, 'queue'))
            self.step(signs('='))
            return Atom('head', queue, value_of(self.step(object_number('id'))))
        test = self.step(signs('=', '!='))
        return Atom(test, first, value_of(self.step(value_number('value'))))

    def actions(self, actions):
        """Reads the actions up to the `end` of the rule."""
        then = ','
        while then == ',':
            condition = []
            first = self.step(used(self.registers, 'register'), words('if', 'deq', 'enq'))
            while first in ('if', 'and'):
                condition.append(self.atom(self.step(used(self.registers, 'register'), words('head'))))
                first = self.step(used(self.registers, 'register'), words('and', 'deq', 'enq'))
            actions.append(Action(condition, self.act(first)))
            then = self.step(signs(','), words('end'))

    def act(self, first):
        """Reads the rest of what an action does."""
        if first == 'deq':
            return Deq(self.step(used(self.queues, 'queue')))
        if first == 'enq':
            queue = self.step(used(self.queues, 'queue'))
            return Enq(queue, value_of(self.step(object_number('id'))), self.module_value())
        self.step(signs(':='))
        return Put(first, self.module_value())

    def module_value(self):
        text = self.step(value_number('value'), used(self.registers, 'register'), words('value'))
        if text == 'value':
            return Front(self.step(used(self.queues, 'queue')))
        return Number(value_of(text)) if text[0].isdigit() else Register(text)

    def feed(self):
        """The items of the feed in order, each as its queue, its id and its value."""
        self.word('feed')
        return self.items()

    def items(self):
        """The items up to the `end` of the feed."""
        items = []
        then = self.step(used(self.queues, 'queue'), words('end'))
        while then != 'end':
            message = value_of(self.step(object_number('id')))
            items.append((then, message, value_of(self.step(value_number('value')))))
            then = self.step(used(self.queues, 'queue'), words('end'))
        return items

    def play_document(self):
        modules = self.modules()
        items = self.feed()
        self.step(Choice('end'))
        return modules, items


# What modules do

def start(modules, items=()):
    """The state at the start, with the items of a feed in the queues."""
    state = State(dict(modules.registers), {queue: deque() for queue in modules.queues})
    for queue, message, value in items:
        state.queues[queue].append((message, value))
    return state


def holds(atom, state):
    if atom.test == 'head':
        queue = state.queues[atom.name]
        return bool(queue) and queue[0][0] == atom.number
    return (state.registers[atom.name] == atom.number) == (atom.test == '=')


def can(rule, state):
    """Whether a rule can fire: in each clause an atom holds."""
    return all(any(holds(atom, state) for atom in clause) for clause in rule.clauses)


def value_in(value, state):
    if isinstance(value, Number):
        return value.number
    if isinstance(value, Register):
        return state.registers[value.name]
    queue = state.queues[value.queue]
    return queue[0][1] if queue else 0


def step(rule, state):
    """Fires a rule that can, and answers the names of what it may have changed: all is read before anything is written."""
    acts = [action.act for action in rule.actions if all(holds(atom, state) for atom in action.condition)]
    taken = {act.queue for act in acts if isinstance(act, Deq)}
    written = {act.register: value_in(act.value, state) for act in acts if isinstance(act, Put)}
    sent = [(act.queue, (act.id, value_in(act.value, state))) for act in acts if isinstance(act, Enq)]
    state.registers.update(written)
    for queue in taken:
        if state.queues[queue]:
            state.queues[queue].popleft()
    for queue, item in sent:
        state.queues[queue].append(item)
    return taken | set(written) | {queue for queue, _ in sent}


def play_plainly(modules, state, most):
    """Fires at each turn the first rule in text order that isn't spontaneous and can; all rules are tried at each turn."""
    rules = [rule for rule in modules.rules if not rule.spontaneous]
    fired = 0
    while True:
        ready = next((rule for rule in rules if can(rule, state)), None)
        if ready is None or fired == most:
            return Played(fired, ready is None)
        step(ready, state)
        fired += 1


def readers_of(rules):
    """For each name the rules, by their places, whose clauses read it."""
    readers = {}
    for place, rule in enumerate(rules):
        for name in {atom.name for clause in rule.clauses for atom in clause}:
            readers.setdefault(name, []).append(place)
    return readers


def play(modules, state, most, journal=None):
    """The same, where after a firing only the rules are tried that read what it may have changed. A journal gets the rules
    that fire."""
    rules = [rule for rule in modules.rules if not rule.spontaneous]
    readers = readers_of(rules)
    ready = {place for place, rule in enumerate(rules) if can(rule, state)}
    fired = 0
    while ready and fired < most:
        rule = rules[min(ready)]
        changed = step(rule, state)
        fired += 1
        if journal is not None:
            journal.append(rule)
        for place in {place for name in changed for place in readers.get(name, ())}:
            if can(rules[place], state):
                ready.add(place)
            else:
                ready.discard(place)
    return Played(fired, not ready)


# What a play prints

def play_lines(modules, state, played):
    lines = ['stuck' if played.is_stuck else 'more', 'fired %d' % played.fired]
    lines += ['reg %s %d' % (name, state.registers[name]) for name in modules.registers if state.registers[name] != 0]
    for queue in modules.queues:
        if state.queues[queue]:
            lines.append('queue %s %s' % (queue, ' '.join('%d:%d' % item for item in state.queues[queue])))
    return lines + ['end']
