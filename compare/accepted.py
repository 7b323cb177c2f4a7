"""Accepted protocols, and random histories of them with many transactions under way.

A protocol is one of the shipped ones, changed in ways that keep it disciplined: whether a rule is disciplined
depends on its own parts, and for a rule that sends a request up also on its kind's rules that answer the parent or
ask the children for it. So rules may be left out and doubled, names and orders changed, and in all other rules values,
statuses and conditions too. Such protocols mostly are not coherent, which the printed order doesn't need.
"""
import random

import grouping
import protocols
import reading
import system
from discipline import template
from printing import firing_text
from shipped import SHIPPED
from writing import protocol_tokens

# The templates whose guards, sets and targets the stability of upward requests looks at.
LOOKED_AT = ('rq_up', 'rq_up_self', 'imm_up', 'rq_down_down', 'rs_up_up')
NAMES = ['st', 'own', 'a', 'b2', 'x_', 'val2', 'Root', 'Ld', 'GetS', 'M', 'evict', 'q', 'Q', 'z9']


# Changes that keep a protocol accepted

def values_for(protocol, rule):
    """The values that a rule can name: those of what it takes, of the lock that it ends, its own and 0."""
    side, message = rule.take
    response = message is not None and protocol.messages[message].endswith('rsp')
    values = ['val', '0'] + (['msg'] if side in ('me', 'parent') else []) + (['rs', 'kept'] if side == 'kids' else [])
    return values + (['kept'] if side == 'parent' and response else [])


def other_values(rng, protocol, rule, name):
    """The rule with other values; the object's own is sent up only where it was before."""
    values = values_for(protocol, rule)
    sets = [(place, rng.choice(values) if place == 'val' and what != 'val' else what) for place, what in rule.sets]
    send = rule.send
    if send and rng.random() < 0.5:
        is_upward = name in ('rq_up', 'rq_up_self')
        fit = [value for value in values if value != 'val' or send[3] == 'val' or not is_upward]
        send = send[:3] + (rng.choice(fit),)
    return rule._replace(sets=sets, send=send)


def some(rng, statuses):
    return rng.sample(statuses, rng.randint(1, len(statuses)))


def other_statuses(rng, protocol, rule):
    """The rule with a condition less, or other statuses in conditions, sets and targets."""
    guard = [atom for atom in rule.guard if rng.random() < 0.8]
    guard = [(test, more, chosen if test == 'asked' or rng.random() < 0.7 else some(rng, protocol.statuses))
             for test, more, chosen in guard]
    sets = [(place, what if place == 'val' or rng.random() < 0.7 else rng.choice(protocol.statuses))
            for place, what in rule.sets]
    send = rule.send
    if send and send[1] and rng.random() < 0.3:
        send = (send[0], some(rng, protocol.statuses)) + send[2:]
    return rule._replace(guard=guard, sets=sets, send=send)


def other_order(rng, items):
    return rng.sample(items, len(items))


def changed_part(rng, protocol, kind, part, boldness):
    """A kind with some of its rules changed, left out and doubled, and all in another order."""
    rules = []
    for rule in part.rules.values():
        name = template(protocol, kind, rule)
        if rng.random() < boldness / 3:
            continue
        if rng.random() < boldness / 3 and len(part.rules) < 40:
            rules.append(rule._replace(name=rule.name + '_2'))
        if rng.random() < boldness:
            rule = other_values(rng, protocol, rule, name)
        if name not in LOOKED_AT and rng.random() < boldness:
            rule = other_statuses(rng, protocol, rule)
        rules.append(rule)
    if rng.random() < 0.5:
        rules = [rule._replace(guard=other_order(rng, rule.guard), sets=other_order(rng, rule.sets))
                 for rule in other_order(rng, rules)]
    result = reading.Part()
    result.fields = dict(other_order(rng, list(part.fields.items())))
    result.dir = part.dir
    result.rules = {rule.name: rule for rule in rules}
    return result


def other_names(rng, tokens, protocol):
    """The tokens of a protocol with its statuses, messages, fields and rules named otherwise."""
    fields = {name for part in protocol.kinds.values() for name in part.fields}
    rules = {name for part in protocol.kinds.values() for name in part.rules}
    names = sorted(set(protocol.statuses) | set(protocol.messages) | fields | rules)
    fresh = rng.sample(NAMES + ['n%d' % k for k in range(len(names))], len(names))
    other = dict(zip(names, fresh))
    return [other.get(token, token) for token in tokens]


def changed(rng, name):
    """The tokens of a shipped protocol that is changed and still accepted."""
    protocol = reading.Reader(SHIPPED[name]).protocol()
    boldness = rng.choice([0, 0.1, 0.3, 0.6])
    kinds = {kind: changed_part(rng, protocol, kind, part, boldness) for kind, part in protocol.kinds.items()}
    messages = dict(other_order(rng, list(protocol.messages.items())))
    result = protocol._replace(statuses=other_order(rng, protocol.statuses), messages=messages, kinds=kinds)
    tokens = protocol_tokens(result)
    return other_names(rng, tokens, result) if rng.random() < 0.5 else tokens


# Histories

# How often a firing is chosen by what it takes: many transactions at once, few, or none preferred.
MOODS = [{'me': 20, 'none': 3, 'parent': 2, 'kids': 2}, {'me': 3, 'none': 0.3, 'parent': 10, 'kids': 20},
         {'me': 4, 'none': 0.2, 'parent': 4, 'kids': 4}, {'me': 1, 'none': 1, 'parent': 1, 'kids': 1}]
# So that all that is asked for is done.
FINISHING = {'me': 1, 'parent': 4, 'kids': 4}
LONGEST = 150


class Walker:
    """A state and its possible firings, which are found anew only around the object that fired last."""

    def __init__(self, protocol, nodes, work):
        self.protocol, self.nodes = protocol, nodes
        self.state = system.start_state(protocol, nodes, work)
        self.rules = {kind: list(part.rules.values()) for kind, part in protocol.kinds.items()}
        self.near = [[place] + [k for k in range(len(nodes)) if nodes[k].parent == place or nodes[place].parent == k]
                     for place in range(len(nodes))]
        self.found = {}
        self.history = []
        for line in range(work.lines):
            self.look(line, range(len(nodes)))

    def look(self, line, places):
        for place in places:
            self.found[line, place] = list(self.possible(line, place))

    def possible(self, line, place):
        """The possible firings at an object, each with what its rule takes and its plan."""
        here = self.state[line][place]
        asking = [k for k in here.children if self.state[line][k].lists['uprq']] if here.kind != 'leaf' else [None]
        for rule in self.rules[here.kind]:
            side = rule.take[0]
            if (side == 'parent' and not here.lists['down']) or (side == 'kids' and here.down is None):
                continue
            for me in asking if side == 'me' else [None]:
                firing = reading.Firing(line, place, rule.name, me)
                plan = system.plan(self.protocol, self.state, firing)
                if plan is not None:
                    yield firing, side, plan

    def step(self, rng, mood):
        """Makes one of the possible firings that the mood allows; answers whether there was one."""
        choices = [choice for found in self.found.values() for choice in found if choice[1] in mood]
        if not choices:
            return False
        firing, _, plan = rng.choices(choices, [mood[side] for _, side, _ in choices])[0]
        system.fire(self.state, firing, plan, len(self.history))
        self.history.append(firing)
        self.look(firing.line, self.near[firing.object])
        return True


def history_text(history):
    return 'history\n%s\nend\n' % '\n'.join(firing_text(firing) for firing in history)


def head(rng):
    """A protocol, a tree of three or four levels and a work, as tokens."""
    name = rng.choice(sorted(SHIPPED))
    tokens = ['use', name] if rng.random() < 0.4 else changed(rng, name)
    protocol = reading.Reader(' '.join(tokens)).protocol()
    tree = protocols.deep_tree(rng)
    kinds = ['root'] + [token for token in tree[2:] if token in ('leaf', 'mid')]
    return tokens + tree + protocols.work(rng, protocol, kinds, rng.choice([1, 1, 2, 3]), rng.choice([6, 12, 24]))


class Documents:
    """Documents with one head: the text in front of the history, and all that their account needs."""

    def __init__(self, rng):
        self.text = ' '.join(head(rng)) + '\n'
        self.protocol, self.nodes, self.work, _ = reading.Reader(self.text + 'history end').document()
        self.upward = grouping.upward_rules(self.protocol)

    def bytes(self, history):
        return (self.text + history_text(history)).encode('latin-1')

    def histories(self, rng):
        """Random histories, most of which end while transactions are under way."""
        for most in rng.choices([10, 20, 40, 60], k=3):
            walker, mood = Walker(self.protocol, self.nodes, self.work), rng.choice(MOODS)
            while len(walker.history) < most and walker.step(rng, mood):
                if rng.random() < 0.05:
                    mood = rng.choice(MOODS)
            for _ in range(3):
                yield walker.history[:rng.randint(len(walker.history) // 3, len(walker.history))]
            longest = rng.choice([most, most + 10, LONGEST])
            while len(walker.history) < longest and walker.step(rng, FINISHING):
                pass
            yield walker.history


def documents(seed):
    """Documents without end, each with its history."""
    rng = random.Random(seed)
    while True:
        its = Documents(rng)
        for history in its.histories(rng):
            yield its, history
