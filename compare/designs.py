"""Random protocols for the discipline: designs rule by rule from the templates, and changes of one part."""
import reading
from discipline import NARROW, REQUESTS, TEMPLATES, first_broken
from reading import CLASSES, Part, Protocol, Rule
from shipped import SHIPPED

VALUES = ['val', 'msg', 'kept', 'rs', '0']
NEEDS = ['any', 'free', 'child', 'parent', 'self']
TAKEN = {'me request': 'up_req', 'parent request': 'down_req', 'parent response': 'down_rsp', 'kids response': 'up_rsp'}
SENT = {'me response': 'down_rsp', 'parent request': 'up_req', 'parent response': 'up_rsp',
        'others request': 'down_req', 'kids request': 'down_req'}
AT_LEAF = {'up_req': 'ext_req', 'down_rsp': 'ext_rsp'}


def suits(kind, template):
    """Whether rules of a kind can have a template."""
    forms = '%s %s' % (template.take, template.send)
    if kind == 'root':
        return 'parent' not in forms
    return kind == 'mid' or 'kids' not in forms and 'others' not in forms


class Parts:
    """Makes random parts of rules over some statuses and messages."""

    def __init__(self, rng, statuses, messages):
        self.rng, self.statuses, self.messages = rng, statuses, messages

    def some(self):
        """A set of statuses, in order of declaration."""
        chosen = self.rng.sample(self.statuses, self.rng.randint(1, len(self.statuses)))
        return [status for status in self.statuses if status in chosen]

    def message(self, *classes):
        """A message of one of these classes, or of any where none is given."""
        return self.rng.choice([name for name, cls in self.messages.items() if not classes or cls in classes])

    def atom(self, form, fields, asked):
        if form == 'field':
            return form, self.rng.choice(list(fields)), self.some()
        if form == 'asked':
            return form, None, self.message(*asked)
        return form, None if form == 'me' else self.rng.choice(['all', 'any']), self.some()


class Designer(Parts):
    """Makes rules of a protocol by their templates."""

    def __init__(self, rng, guards):
        messages = {}
        for cls in rng.sample(CLASSES, len(CLASSES)):
            for _ in range(rng.choice([1, 1, 1, 1, 2])):
                messages['m%d' % len(messages)] = cls
        super().__init__(rng, ['I', 'S', 'M', 'E'][:rng.randint(2, 4)], messages)
        self.guards = guards

    def fields(self):
        names = self.rng.sample(['st', 'own', 'f3'], self.rng.choice([0, 1, 1, 2, 3]))
        return {name: self.rng.choice(self.statuses) for name in names}

    def rule(self, kind, name, of, fields):
        """A random rule of a template, which meets the first seven clauses."""
        rng, template = self.rng, TEMPLATES[of]
        side = template.take.split()[0]
        requester = kind != 'leaf' and (side == 'me' or template.up == 'child' or template.down == 'child')
        kept = template.take in ('parent response', 'kids response')
        forms = ['field', 'field'] * bool(fields) + ['kids'] * (kind != 'leaf') + ['asked'] * kept
        forms += ['me', 'others'] * (requester and of not in NARROW)
        values = ['val', 'val', '0'] + ['msg'] * (side in ('me', 'parent')) + ['kept'] * kept + ['rs'] * (side == 'kids')
        guard = [self.atom(rng.choice(forms), fields, REQUESTS) for _ in range(rng.choice(self.guards) if forms else 0)]
        places = list(fields) + ['val'] + ['me'] * requester + ['targets', 'targets'] * (side == 'kids')
        sets = {place: rng.choice(values if place == 'val' else self.statuses)
                for place in rng.sample(places, rng.randint(0, min(4, len(places)))) if template.may_set}
        take = side, None if side == 'none' else self.message(at(kind, side, TAKEN[template.take]))
        send = None
        if template.send is not None:
            to = template.send.split()[0]
            chosen = self.some() if to in ('kids', 'others') else None
            send = to, chosen, self.message(at(kind, to, SENT[template.send])), rng.choice(values)
        return Rule(name, take, template.up, template.down, guard, list(sets.items()), template.free, template.lock, send)

    def part(self, kind, most):
        rng, part = self.rng, Part()
        part.fields = self.fields()
        part.dir = None if kind == 'leaf' else rng.choice(self.statuses)
        chosen = [of for of, template in TEMPLATES.items() if suits(kind, template)
                  for _ in range(rng.choice([0, 0, 1]) if template.take == 'none' else rng.randint(0, most))]
        rng.shuffle(chosen)
        for name, of in zip(rng.sample(range(40), min(40, len(chosen))), chosen):
            part.rules['r%d' % name] = self.rule(kind, 'r%d' % name, of, part.fields)
        return part


def at(kind, side, cls):
    """The class of a direction in a kind: a leaf's requester is its processor."""
    return AT_LEAF[cls] if kind == 'leaf' and side == 'me' else cls


def design(rng, most=2, guards=(0, 0, 0, 1)):
    """A protocol of which each rule meets the first seven clauses."""
    designer = Designer(rng, guards)
    kinds = {kind: designer.part(kind, most) for kind in ('root', 'mid', 'leaf')}
    return Protocol('p%d' % rng.randint(0, 9), designer.statuses, designer.messages, kinds)


def mended(rng, protocol):
    """The design with parts taken out until it is disciplined."""
    while True:
        refusal = first_broken(protocol)
        if refusal is None:
            return protocol
        rules = protocol.kinds[refusal.kind].rules
        up, down = refusal.rule, refusal.breach.partner[-1]
        rules[down.name] = down._replace(sets=[s for s in down.sets if s[0] == 'me'])
        if rng.random() < 0.5:
            rules[down.name] = down
            rules[up.name] = up._replace(guard=[], send=up.send[:3] + ('0',))


def disciplined(rng):
    """An accepted protocol: a shipped one, or a design that is mended."""
    if rng.random() < 0.25:
        return reading.Reader(SHIPPED[rng.choice(sorted(SHIPPED))]).protocol()
    return mended(rng, design(rng))


# Changes

class Changer(Parts):
    """Changes one part of one rule of a protocol, to anything that reads."""

    def changed(self, rule, fields):
        """The rule with one part changed."""
        changes = [self.take, self.need, self.lock, self.less, self.other_set, self.value, self.send]
        return self.rng.choice(changes + [self.more] * 3 + [self.one_more_set] * 2)(rule, fields)

    def take(self, rule, fields):
        side = self.rng.choice(['me', 'parent', 'kids', 'none', rule.take[0]])
        return rule._replace(take=(side, None if side == 'none' else self.message()))

    def need(self, rule, fields):
        return rule._replace(**{self.rng.choice(['up', 'down']): self.rng.choice(NEEDS)})

    def lock(self, rule, fields):
        lock = self.rng.choice(['up', 'down']), self.rng.choice(['child', 'parent', 'self'])
        free = self.rng.choice([None, 'up', 'down'])
        return self.rng.choice([rule._replace(lock=None), rule._replace(lock=lock), rule._replace(free=free)])

    def more(self, rule, fields):
        """One condition more."""
        form = self.rng.choice(['field'] * 2 * bool(fields) + ['me', 'kids', 'others', 'asked'])
        return rule if len(rule.guard) == 16 else rule._replace(guard=rule.guard + [self.atom(form, fields, ())])

    def less(self, rule, fields):
        """One condition less."""
        k = self.rng.randrange(len(rule.guard) + 1)
        return rule._replace(guard=rule.guard[:k] + rule.guard[k + 1:])

    def one_more_set(self, rule, fields):
        return rule._replace(sets=rule.sets + self.fresh_set(rule.sets, fields))

    def other_set(self, rule, fields):
        k = self.rng.randrange(len(rule.sets) + 1)
        rest = rule.sets[:k] + rule.sets[k + 1:]
        return rule._replace(sets=rest[:k] + self.fresh_set(rest, fields) + rest[k:])

    def fresh_set(self, sets, fields):
        """A set of a place that isn't set, as a list, which is empty where all are."""
        taken = [place for place, _ in sets]
        places = [place for place in list(fields) * 2 + ['val', 'val', 'me', 'targets'] if place not in taken]
        chosen = self.rng.sample(places, min(1, len(places)))
        return [(place, self.rng.choice(VALUES if place == 'val' else self.statuses)) for place in chosen]

    def value(self, rule, fields):
        return rule if rule.send is None else rule._replace(send=rule.send[:3] + (self.rng.choice(VALUES),))

    def send(self, rule, fields):
        if rule.send is None or self.rng.random() < 0.2:
            to = self.rng.choice(['me', 'parent', 'kids', 'others'])
            chosen = self.some() if to in ('kids', 'others') else None
            return rule._replace(send=self.rng.choice([None, (to, chosen, self.message(), self.rng.choice(VALUES))]))
        to, chosen, message, value = rule.send
        other = [(to, chosen, self.message(), value), (to, chosen and self.some(), message, value)]
        return rule._replace(send=self.rng.choice(other))


def with_changes(rng, protocol, number):
    """The protocol with one part changed in each of so many rules."""
    changer = Changer(rng, protocol.statuses, protocol.messages)
    for _ in range(number):
        part = protocol.kinds[rng.choice(['root', 'mid', 'leaf'])]
        if part.rules:
            name = rng.choice(list(part.rules))
            part.rules[name] = changer.changed(part.rules[name], part.fields)
    return protocol
