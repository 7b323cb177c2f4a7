"""The discipline of protocols, written apart from the program: templates, clauses, stability.

A rule meets a clause or fails it. A protocol is disciplined where each rule meets all eight; else
it is refused with its first rule in text order that fails a clause, and the first clause that this
rule fails.
"""
import itertools
from collections import namedtuple

REQUESTS = ('ext_req', 'up_req', 'down_req')

Template = namedtuple('Template', 'take up down may_set free lock send')

# What a rule takes, its needs, whether it may set, what it frees and locks, and what it sends.
TEMPLATES = {
    'imm_self': Template('none', 'free', 'free', True, None, None, None),
    'imm_down': Template('me request', 'free', 'free', True, None, None, 'me response'),
    'imm_up': Template('parent request', 'any', 'free', True, None, None, 'parent response'),
    'rq_up': Template('me request', 'free', 'free', False, None, ('up', 'child'), 'parent request'),
    'rq_up_self': Template('none', 'free', 'free', False, None, ('up', 'self'), 'parent request'),
    'rq_up_down': Template('me request', 'free', 'free', False, None, ('down', 'child'), 'others request'),
    'rq_down_self': Template('none', 'free', 'free', False, None, ('down', 'self'), 'kids request'),
    'rq_down_down': Template('parent request', 'any', 'free', False, None, ('down', 'parent'), 'kids request'),
    'rs_down': Template('parent response', 'child', 'free', True, 'up', None, 'me response'),
    'rs_down_self': Template('parent response', 'self', 'free', True, 'up', None, None),
    'rs_down_rq_down': Template('parent response', 'child', 'free', True, 'up', ('down', 'child'), 'others request'),
    'rs_up_down': Template('kids response', 'any', 'child', True, 'down', None, 'me response'),
    'rs_up_up': Template('kids response', 'any', 'parent', True, 'down', None, 'parent response'),
    'rs_up_self': Template('kids response', 'any', 'self', True, 'down', None, None),
}

UPWARD = ('rq_up', 'rq_up_self')

# The templates whose guards read neither the requester nor the others.
NARROW = ('rq_up', 'rq_up_self', 'imm_up', 'rq_down_down', 'rs_up_up')


class Look:
    """A rule in its protocol and kind, and the template of its shape once that is known."""

    def __init__(self, protocol, kind, rule):
        self.protocol, self.kind, self.rule = protocol, kind, rule
        self.taken, taken_id = rule.take
        self.to, _, sent_id, self.sent_value = rule.send or (None, None, None, None)
        self.taken_class = protocol.messages.get(taken_id)
        self.sent_class = protocol.messages.get(sent_id)
        self.name = None

    def template(self):
        return TEMPLATES[self.name]


# The first seven clauses: whether a rule meets each

def level(look):
    """The root has no parent, and a leaf no children to ask."""
    if look.kind == 'root':
        return look.taken != 'parent' and look.to != 'parent'
    return look.kind != 'leaf' or look.taken != 'kids' and look.to not in ('kids', 'others')


def class_(look):
    """Each message has a class of its way."""
    takes, sends = classes(look.kind)
    return (look.taken == 'none' or look.taken_class in takes[look.taken]) and (
        look.to is None or look.sent_class in sends[look.to])


def classes(kind):
    """The classes of what a kind takes from each side, and of what it sends to each."""
    leaf = kind == 'leaf'
    takes = {'me': ['ext_req' if leaf else 'up_req'], 'parent': ['down_req', 'down_rsp'], 'kids': ['up_rsp']}
    sends = {'me': ['ext_rsp' if leaf else 'down_rsp'], 'parent': ['up_req', 'up_rsp'],
             'kids': ['down_req'], 'others': ['down_req']}
    return takes, sends


def shape(look):
    """Take, locks and send are those of a template."""
    form = form_of(look.taken, look.taken_class), look.rule.free, look.rule.lock, form_of(look.to, look.sent_class)
    for name, template in TEMPLATES.items():
        if form == (template.take, template.free, template.lock, template.send):
            look.name = name
    return look.name is not None


def form_of(side, message_class):
    """A direction with `request` or `response`, as the table of templates has it."""
    if side in (None, 'none'):
        return side
    return side + (' request' if message_class in REQUESTS else ' response')


def locks(look):
    """Both needs are the template's."""
    return (look.rule.up, look.rule.down) == (look.template().up, look.template().down)


def silent(look):
    """A template without sets sets nothing."""
    return look.template().may_set or not look.rule.sets


def scope(look):
    """The guards of narrow templates read neither the requester nor the others."""
    return look.name not in NARROW or not any(atom[0] in ('me', 'others') for atom in look.rule.guard)


def names(look):
    """Each name stands where it has a meaning whenever the rule may fire."""
    return (all(atom_fits(look, atom) for atom in look.rule.guard) and all(set_fits(look, *s) for s in look.rule.sets)
            and (look.to is None or value_fits(look, look.sent_value)))


def has_requester(look):
    return look.kind != 'leaf' and (look.taken == 'me' or 'child' in (look.template().up, look.template().down))


def has_kept(look):
    return look.taken == 'kids' or look.template().take == 'parent response'


def atom_fits(look, atom):
    name, _, chosen = atom
    if name in ('me', 'others'):
        return has_requester(look)
    if name == 'kids':
        return look.kind != 'leaf'
    return name == 'field' or has_kept(look) and look.protocol.messages[chosen] in REQUESTS


def set_fits(look, place, what):
    if place == 'me':
        return has_requester(look)
    if place == 'targets':
        return look.taken == 'kids'
    return place != 'val' or value_fits(look, what)


def value_fits(look, value):
    if value == 'msg':
        return look.taken in ('me', 'parent')
    if value == 'kept':
        return has_kept(look)
    return value != 'rs' or look.taken == 'kids'


FIRST_SEVEN = [('level', level), ('class', class_), ('shape', shape), ('locks', locks), ('silent', silent),
               ('scope', scope), ('names', names)]
CLAUSES = [clause for clause, _ in FIRST_SEVEN] + ['stable']


def judged(protocol, kind, rule):
    """The template of a rule and None, or None and the first of the seven clauses that it fails."""
    look = Look(protocol, kind, rule)
    for clause, meets in FIRST_SEVEN:
        if not meets(look):
            return None, clause
    return look.name, None


def template(protocol, kind, rule):
    """The template of a rule, or None where it fails one of the first seven clauses."""
    return judged(protocol, kind, rule)[0]


# Stability

# An abstract state: the status of each field, and the statuses that occur among the children.
Abstract = namedtuple('Abstract', 'fields kids')
Breach = namedtuple('Breach', 'partner at')


def abstract_states(protocol, kind):
    """All abstract states of a kind, from the least on."""
    part, statuses = protocol.kinds[kind], protocol.statuses
    sets = [[s for i, s in enumerate(statuses) if number >> i & 1] for number in range(1, 2 ** len(statuses))]
    for chosen in itertools.product(statuses, repeat=len(part.fields)):
        for kids in [[]] if kind == 'leaf' else sets:
            yield Abstract(dict(zip(part.fields, chosen)), kids)


def atom_at(atom, at, asked):
    """Whether an atom without `me` and `others` holds in an abstract state."""
    name, more, chosen = atom
    if name == 'asked':
        return asked == chosen
    if name == 'field':
        return at.fields[more] in chosen
    tests = [status in chosen for status in at.kids]
    return all(tests) if more == 'all' else any(tests)


def guard_at(guard, at, asked=None):
    return all(atom_at(atom, at, asked) for atom in guard)


def partners(protocol, kind):
    """What may happen at an object while a request that it sent up waits, in text order."""
    rules = protocol.kinds[kind].rules.values()
    of = {rule.name: template(protocol, kind, rule) for rule in rules}
    for rule in rules:
        if of[rule.name] == 'imm_up':
            yield (rule,)
        if of[rule.name] == 'rq_down_down':
            yield from ((rule, back) for back in rules if of[back.name] == 'rs_up_up')


def happens(partner, at):
    """Whether a partner can happen in an abstract state."""
    if len(partner) == 1:
        return guard_at(partner[0].guard, at)
    first, back = partner
    asks_somebody = any(status in first.send[1] for status in at.kids)
    return guard_at(first.guard, at) and asks_somebody and guard_at(back.guard, at, first.take[1])


def after(protocol, partner, at):
    """The abstract state after a partner."""
    sets = dict(partner[-1].sets)
    fields = {name: sets.get(name, status) for name, status in at.fields.items()}
    kids = at.kids
    if 'targets' in sets:
        left = set(kids) - set(partner[0].send[1]) | {sets['targets']}
        kids = [status for status in protocol.statuses if status in left]
    return Abstract(fields, kids)


def changes_value(upward, partner):
    """Whether a partner sets the value that the waiting request has sent to another one."""
    return upward.send[3] == 'val' and dict(partner[-1].sets).get('val', 'val') != 'val'


def first_unstable(protocol, kind, upward):
    """The first partner that breaks a rule that sends up and waits, with the least state, or None."""
    states = [at for at in abstract_states(protocol, kind) if guard_at(upward.guard, at)]
    for partner in partners(protocol, kind):
        for at in states:
            if happens(partner, at) and (changes_value(upward, partner)
                                         or not guard_at(upward.guard, after(protocol, partner, at))):
                return Breach(partner, at)
    return None


# The verdict

Refusal = namedtuple('Refusal', 'kind rule clause breach')


def first_broken(protocol):
    """What a protocol is refused with, or None where it is disciplined."""
    for kind, part in protocol.kinds.items():
        for rule in part.rules.values():
            name, clause = judged(protocol, kind, rule)
            breach = first_unstable(protocol, kind, rule) if name in UPWARD else None
            if clause or breach:
                return Refusal(kind, rule, clause or 'stable', breach)
    return None


def state_text(kind, at):
    words = ['%s=%s' % pair for pair in at.fields.items()] + (['kids=' + ','.join(at.kids)] if kind != 'leaf' else [])
    return ' '.join(words) or '-'


def refusal_text(refusal):
    text = 'refused %s %s %s' % (refusal.kind, refusal.rule.name, refusal.clause)
    if refusal.breach is None:
        return text
    rules = ' then '.join(rule.name for rule in refusal.breach.partner)
    return '%s with %s at %s' % (text, rules, state_text(refusal.kind, refusal.breach.at))


def accepted_lines(protocol):
    """The verdict on a disciplined protocol."""
    return ['accepted ' + protocol.name] + [
        '%s %s %s' % (kind, rule.name, template(protocol, kind, rule))
        for kind, part in protocol.kinds.items() for rule in part.rules.values()]
