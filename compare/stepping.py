"""Walks of a protocol in step with its modules, on one line."""
import collections
import copy

import emitting
import modules as random_modules
import playing
import protocols
import reading
import system
from system import Lock, Message

LONGEST = 60
# How often a state is left for one that no walk need reach.
ASTRAY = 0.5
RULES_OF_A_STATE = 40


def state_of(image):
    """The registers and queues of an image as a state of modules."""
    registers, queues = image
    return playing.State(dict(registers), {name: collections.deque(items) for name, items in queues.items()})


def as_image(state):
    return state.registers, {name: list(items) for name, items in state.queues.items()}


# States that no walk need reach

def message(rng, protocol):
    return Message(rng.choice(list(protocol.messages)), rng.choice([0, 1, 5, 2 ** 64 - 1]), None)


def messages(rng, protocol):
    return collections.deque(message(rng, protocol) for _ in range(rng.choice([0, 0, 1, 1, 2])))


def lock(rng, protocol, here, is_down):
    """A well-formed lock, held or free."""
    if not protocol.messages or rng.random() < 0.35:
        return None
    origin = rng.choice(['self', 'parent'] + (['cpu'] * 2 if here.kind == 'leaf' else list(here.children) * 2))
    kept = message(rng, protocol)
    awaited = [child for child in here.children if rng.random() < 0.6] if is_down else []
    return Lock(origin, kept.id, kept.value, awaited)


def stray(rng, protocol, objects):
    """The objects with some of them in any well-formed state."""
    result = copy.deepcopy(objects)
    for here in result:
        if rng.random() < 0.3:
            continue
        here.fields = {name: rng.choice(protocol.statuses) for name in here.fields}
        here.dir = {child: rng.choice(protocol.statuses) for child in here.dir}
        here.val = rng.choice([0, 3, 2 ** 64 - 1])
        here.up, here.down = lock(rng, protocol, here, False), lock(rng, protocol, here, True)
        lanes = [] if here.kind == 'root' else ['uprq', 'uprs', 'down']
        for lane in lanes + (['req', 'ans'] if here.kind == 'leaf' else []):
            here.lists[lane] = messages(rng, protocol) if protocol.messages else here.lists[lane]
    return result


def meet(rng, here, atom, asked_of):
    """Changes an object so that a condition likely holds."""
    name, more, chosen = atom
    if name == 'field':
        here.fields[more] = rng.choice(chosen)
    elif name == 'asked':
        lock_kept = getattr(here, asked_of)
        if lock_kept is not None:
            setattr(here, asked_of, lock_kept._replace(id=chosen))
    else:
        for child in here.children:
            if more == 'all' or rng.random() < 0.6:
                here.dir[child] = rng.choice(chosen)


def made_ready(rng, protocol, objects):
    """A stray state in which all is mostly as some rule wants it."""
    result = stray(rng, protocol, objects)
    here = rng.choice(result)
    rules = list(protocol.kinds[here.kind].rules.values())
    if not rules:
        return result
    rule = rng.choice(rules)
    for side, need in (('up', rule.up), ('down', rule.down)):
        if need == 'free':
            setattr(here, side, None)
        elif need != 'any':
            kept, asking = message(rng, protocol), ['cpu'] if here.kind == 'leaf' else here.children
            awaited = [child for child in here.children if rng.random() < 0.7] if side == 'down' else []
            setattr(here, side, Lock(rng.choice(asking) if need == 'child' else need, kept.id, kept.value, awaited))
    taken, ident = rule.take
    for atom in rule.guard:
        meet(rng, here, atom, 'up' if taken == 'parent' else 'down')
    queues = {'me': [result[child].lists['uprq'] for child in here.children] or [here.lists['req']],
              'parent': [here.lists['down']], 'kids': [result[child].lists['uprs'] for child in here.children], 'none': []}
    for queue in queues[taken]:
        queue.appendleft(message(rng, protocol)._replace(id=ident))
    return result


# Comparing

class Pair:
    """A protocol on a tree beside its modules."""

    def __init__(self, tokens, text):
        self.protocol, self.nodes = random_modules.read_emit(tokens)
        self.modules = playing.ModuleReader(text).modules()
        self.rules = {(rule.object, rule.name, rule.child): rule for rule in self.modules.rules}
        self.counts = collections.Counter()

    def start(self):
        work = reading.RawWork(0, 1, 0, 0, 0, [])
        return system.start_state(self.protocol, self.nodes, work)[0]

    def fault_of_names(self, objects):
        """Whether each module rule is the name of one firing, each firing has one rule, and they start alike."""
        names = [(firing.object, firing.rule, firing.me) for place in range(len(objects))
                 for firing in protocols.candidates(self.protocol, [objects], 0, place)]
        if names != list(self.rules) or len(names) != len(self.modules.rules):
            return 'the rules are not the firings'
        if emitting.image(self.protocol, objects) != as_image(playing.start(self.modules)):
            return 'they start otherwise'
        own = [rule.spontaneous for rule in self.modules.rules]
        kinds = [self.protocol.kinds[self.nodes[place].kind].rules[name].take[0] == 'none' for place, name, _ in names]
        return None if own == kinds else 'other rules are spontaneous'

    def fault_at(self, objects):
        """What differs at a state, or nothing; and the possible firings with the states to which they lead."""
        shown, possible = emitting.image(self.protocol, objects), []
        state = state_of(shown)
        for name, rule in self.rules.items():
            firing = reading.Firing(0, *name)
            is_possible = system.plan(self.protocol, [objects], firing) is not None
            self.counts['firings and rules that agree'] += 1
            if playing.can(rule, state) != is_possible:
                return '%s %s' % ('only the firing is possible:' if is_possible else 'only the rule can fire:', name), []
            if is_possible:
                possible.append((firing, rule))
        return None, possible

    def fault_of_step(self, objects, firing, rule):
        """Where a firing and its rule lead from a state: what differs, or nothing, and the state of the firing."""
        state = state_of(emitting.image(self.protocol, objects))
        after = copy.deepcopy(objects)
        system.fire([after], firing, system.plan(self.protocol, [after], firing), 0)
        playing.step(rule, state)
        self.counts['steps to the same state'] += 1
        if emitting.image(self.protocol, after) != as_image(state):
            return 'the rule leads elsewhere: %s' % (firing,), after
        return None, after

    def fault_around(self, rng, objects):
        """What differs at a state and at the states after it, or nothing, and one of these."""
        fault, possible = self.fault_at(objects)
        following = None
        for firing, rule in rng.sample(possible, min(len(possible), RULES_OF_A_STATE)):
            if fault is None:
                fault, following = self.fault_of_step(objects, firing, rule)
        return fault, following


def requests(rng, pair, objects):
    """Gives the leaves requests."""
    asked = [name for name, cls in pair.protocol.messages.items() if cls == 'ext_req']
    for here in objects:
        if here.kind == 'leaf' and asked:
            here.lists['req'] += [Message(rng.choice(asked), rng.randint(0, 9), None) for _ in range(rng.randint(0, 4))]


def walked(rng, tokens, text):
    """A random walk of a protocol in step with the modules of a text: what was compared, and what is wrong, or nothing."""
    try:
        pair = Pair(tokens, text)
    except reading.Fault as fault:
        return collections.Counter(), 'the modules do not read: %s' % fault
    objects = pair.start()
    fault = pair.fault_of_names(objects)
    requests(rng, pair, objects)
    here = objects
    for _ in range(LONGEST):
        if fault is not None or here is None:
            break
        fault, here = pair.fault_around(rng, here)
        pair.counts['states of walks'] += 1
        if rng.random() < ASTRAY and fault is None:
            fault, _ = pair.fault_around(rng, rng.choice([stray, made_ready, made_ready])(rng, pair.protocol, objects))
            pair.counts['states that no walk need reach'] += 1
    return pair.counts, fault
