"""States and firings: what a firing does where it is possible, and what a history leads to."""
from collections import deque, namedtuple

from discipline import REQUESTS

Message = namedtuple('Message', 'id value number')
Lock = namedtuple('Lock', 'origin id value awaited')
LANES = ('uprq', 'uprs', 'down', 'req', 'ans')


class Object:
    """One object on one line: its own state and the lists that end at it or go up from it."""

    def __init__(self, protocol, nodes, place):
        self.kind = nodes[place].kind
        self.parent = nodes[place].parent
        self.children = [k for k, node in enumerate(nodes) if node.parent == place]
        part = protocol.kinds[self.kind]
        self.fields = dict(part.fields)
        self.dir = {child: part.dir for child in self.children}
        self.val = 0
        self.up = self.down = None
        self.lists = {lane: deque() for lane in LANES}


def start_state(protocol, nodes, work):
    """For each line the objects at the start."""
    state = [[Object(protocol, nodes, k) for k in range(len(nodes))] for _ in range(work.lines)]
    for where, _, line, _, requests in work.entries:
        state[line][where].lists['req'] += [Message(name, value, None) for name, value, _ in requests]
    return state


class View:
    """What a firing at one object can name; what doesn't exist is None."""

    def __init__(self, objects, here, rule, me):
        side, taken_id = rule.take
        self.here, self.taken, self.queues = here, [], []
        self.requester = self.msg = self.kept = self.rs = self.targets = None
        if side == 'me':
            self.requester = 'cpu' if here.kind == 'leaf' else me
            self.queues = [here.lists['req'] if here.kind == 'leaf' else objects[me].lists['uprq']]
        elif side == 'parent':
            self.kept = here.up
            if here.up is not None and (here.up.origin == 'cpu' or isinstance(here.up.origin, int)):
                self.requester = here.up.origin
            self.queues = [here.lists['down']]
        elif side == 'kids' and here.down is not None:
            self.kept = here.down
            if isinstance(here.down.origin, int):
                self.requester = here.down.origin
            self.targets = here.down.awaited
            self.queues = [objects[child].lists['uprs'] for child in here.down.awaited]
        self.there = side == 'none' or bool(self.queues)
        for queue in self.queues:
            if not queue or queue[0].id != taken_id:
                self.there = False
            else:
                self.taken.append(queue[0])
        if self.there and side in ('me', 'parent'):
            self.msg = self.taken[0].value
        if self.there and side == 'kids':
            self.rs = self.taken[0].value

    def others(self):
        return [child for child in self.here.children if child != self.requester]

    def value(self, name):
        if name == '0':
            return 0
        if name == 'val':
            return self.here.val
        if name == 'kept':
            return None if self.kept is None else self.kept.value
        return self.msg if name == 'msg' else self.rs


def need_holds(need, lock):
    """Whether a need on a lock holds."""
    if need == 'any':
        return True
    if lock is None:
        return need == 'free'
    if need == 'child':
        return lock.origin == 'cpu' or isinstance(lock.origin, int)
    return need == lock.origin


def atom_holds(atom, view):
    """Whether all that an atom names exists and it holds."""
    name, more, chosen = atom
    here = view.here
    if name == 'field':
        return here.fields[more] in chosen
    if name == 'asked':
        return view.kept is not None and view.kept.id == chosen
    if name == 'me':
        return view.requester in here.dir and here.dir[view.requester] in chosen
    if name == 'others' and view.requester is None:
        return False
    among = here.children if name == 'kids' else view.others()
    tests = [here.dir[child] in chosen for child in among]
    return all(tests) if more == 'all' else any(tests)


def new_values(rule, view):
    """The field, value and directory changes of the sets, or None where a name doesn't exist."""
    fields, entries, val = {}, {}, None
    for place, what in rule.sets:
        if place == 'val':
            val = view.value(what)
            if val is None:
                return None
        elif place == 'targets':
            if view.targets is None:
                return None
        elif place == 'me':
            if view.requester not in view.here.dir:
                return None
        else:
            fields[place] = what
    sets = dict(rule.sets)
    if 'targets' in sets:
        entries.update({child: sets['targets'] for child in view.targets})
    if 'me' in sets:
        entries[view.requester] = sets['me']
    return fields, entries, val


def destination(protocol, rule, view, objects):
    """The lists to which a rule sends and the children among them, or None where there is no such place."""
    to, chosen, message, _ = rule.send
    here = view.here
    if to == 'me':
        if view.requester is None:
            return None
        own = view.requester == 'cpu'
        return [here.lists['ans'] if own else objects[view.requester].lists['down']], []
    if to == 'parent':
        if here.parent is None:
            return None
        return [here.lists['uprs' if protocol.messages[message] == 'up_rsp' else 'uprq']], []
    among = here.children if to == 'kids' else view.others()
    if to == 'others' and view.requester is None:
        return None
    targets = [child for child in among if here.dir[child] in chosen]
    if not targets:
        return None
    return [objects[child].lists['down'] for child in targets], targets


def in_hand(protocol, rule, view, sent):
    """The request that a lock of the rule keeps, or None."""
    side = rule.take[0]
    if side in ('me', 'parent') and protocol.messages[view.taken[0].id] in REQUESTS:
        return view.taken[0].id, view.taken[0].value
    if side in ('parent', 'kids'):
        return None if view.kept is None else (view.kept.id, view.kept.value)
    return sent if side == 'none' else None


class Plan:
    """All that a possible firing does."""

    def __init__(self):
        self.queues, self.taken, self.changes, self.free, self.lock = [], [], None, None, None
        self.goals, self.sent, self.starts = [], None, False


def plan(protocol, state, firing):
    """What a firing does in a state, or None where it isn't possible there."""
    if firing.line >= len(state) or firing.object >= len(state[firing.line]):
        return None
    objects = state[firing.line]
    here = objects[firing.object]
    rule = protocol.kinds[here.kind].rules.get(firing.rule)
    if rule is None:
        return None
    if rule.take[0] == 'me' and here.kind != 'leaf':
        if firing.me not in here.children:
            return None
    elif firing.me is not None:
        return None
    view = View(objects, here, rule, firing.me)
    if not view.there or not need_holds(rule.up, here.up) or not need_holds(rule.down, here.down):
        return None
    if not all(atom_holds(atom, view) for atom in rule.guard):
        return None
    result = Plan()
    result.changes = new_values(rule, view)
    if result.changes is None:
        return None
    targets = []
    if rule.send is not None:
        goals = destination(protocol, rule, view, objects)
        value = view.value(rule.send[3])
        if goals is None or value is None:
            return None
        result.goals, targets = goals
        result.sent = (rule.send[2], value)
    if rule.lock is not None:
        side, origin = rule.lock
        held = view.requester if origin == 'child' else origin
        request = in_hand(protocol, rule, view, result.sent)
        if held is None or request is None:
            return None
        result.lock = side, Lock(held, request[0], request[1], targets if side == 'down' else [])
    result.free = rule.free
    result.queues, result.taken = view.queues, view.taken
    result.starts = rule.take[0] == 'none' or (rule.take[0] == 'me' and here.kind == 'leaf')
    return result


def fire(state, firing, steps, place):
    """Makes a possible firing and answers the number of its transaction."""
    here = state[firing.line][firing.object]
    transaction = place if steps.starts else steps.taken[0].number
    for queue in steps.queues:
        queue.popleft()
    fields, entries, val = steps.changes
    here.fields.update(fields)
    here.dir.update(entries)
    if val is not None:
        here.val = val
    if steps.free == 'up':
        here.up = None
    if steps.free == 'down':
        here.down = None
    if steps.lock is not None and steps.lock[0] == 'up':
        here.up = steps.lock[1]
    if steps.lock is not None and steps.lock[0] == 'down':
        here.down = steps.lock[1]
    for goal in steps.goals:
        goal.append(Message(steps.sent[0], steps.sent[1], transaction))
    return transaction


def quiet(state):
    """Whether only answers are left and no lock is held."""
    for objects in state:
        for here in objects:
            if here.up is not None or here.down is not None:
                return False
            if any(here.lists[lane] for lane in LANES if lane != 'ans'):
                return False
    return True


def replay(protocol, state, history):
    """Makes the firings in order; answers their transactions and the place of the first that isn't possible."""
    numbers = []
    for place, firing in enumerate(history):
        steps = plan(protocol, state, firing)
        if steps is None:
            return numbers, place
        numbers.append(fire(state, firing, steps, place))
    return numbers, None
