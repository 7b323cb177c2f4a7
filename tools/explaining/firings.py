"""Tells why a firing isn't possible in a state, and which firings are."""
from itertools import islice

import system
from printing import firing_text, object_lines
from protocols import candidates
from reading import tokens
from system import need_holds

from explaining.phrases import counted, listed, marked
from explaining.rules import condition_text, rule_text

SHOWN = 24


def told(text, protocol, state, history, place):
    """The lines for a history whose firing at a place isn't possible; the state is the one before it."""
    firing = history[place]
    start, length = place_in_text(text, place)
    lines = ['Firing %d of the history, counted from 0, is not possible:' % place, '']
    lines += marked(text, start, length) + ['']
    lines += [why_not(protocol, state, firing), '']
    lines += around(protocol, state, firing)
    return lines + possible_lines(protocol, state, firing)


def place_in_text(text, place):
    """Where a firing of the history begins in the text, and how long it is."""
    found = next(islice(tokens_of_firings(text), place, None))
    return found[0].start, found[-1].start + len(found[-1].text) - found[0].start


def tokens_of_firings(text):
    """The tokens of each firing of a document that reads."""
    source = tokens(text)
    while next(source).text != 'history':
        pass
    token = next(source)
    while token.text != 'end':
        found = [token, next(source), next(source)]
        token = next(source)
        if token.text == 'from':
            found += [token, next(source)]
            token = next(source)
        yield found


def around(protocol, state, firing):
    """The rule, and the lines of the state about the object, where they are there."""
    if firing.line >= len(state) or firing.object >= len(state[firing.line]):
        return []
    objects = state[firing.line]
    here = objects[firing.object]
    rule = protocol.kinds[here.kind].rules.get(firing.rule)
    lines = ['The rule is', '    ' + rule_text(rule)] if rule else []
    near = [firing.object] + ([firing.me] if firing.me in here.children else [])
    lines.append('Before the firing, the state of line %d has' % firing.line)
    lines += ['    ' + line for place in near for line in object_lines(place, objects[place])]
    return lines + ['']


# Why not

class Look:
    """What a firing names in a state; the view is there once its child is known to be right."""

    def __init__(self, protocol, state, firing):
        self.protocol, self.state, self.firing = protocol, state, firing
        self.objects = self.here = self.rule = self.view = None


def why_not(protocol, state, firing):
    """A sentence on the first reason why a firing isn't possible, or None where it is."""
    look = Look(protocol, state, firing)
    for reason in (no_object, no_rule, no_child, no_head, no_need, no_condition, no_change, no_goal, no_lock):
        found = reason(look)
        if found is not None:
            return found
    return None


def no_object(look):
    firing = look.firing
    if firing.line >= len(look.state):
        return 'There is no line %d: the work has %s, counted from 0.' % (firing.line, counted(len(look.state), 'line'))
    look.objects = look.state[firing.line]
    if firing.object >= len(look.objects):
        return 'There is no object %d: the tree has the objects 0 to %d.' % (firing.object, len(look.objects) - 1)
    look.here = look.objects[firing.object]
    return None


def no_rule(look):
    kinds = look.protocol.kinds
    look.rule = kinds[look.here.kind].rules.get(look.firing.rule)
    if look.rule is not None:
        return None
    having = [kind for kind, part in kinds.items() if look.firing.rule in part.rules]
    return 'Object %d is %s, and only objects of kind %s have a rule `%s`.' % (
        look.firing.object, 'the root' if look.here.kind == 'root' else 'a ' + look.here.kind,
        listed(having, 'or'), look.firing.rule)


def no_child(look):
    """A child is named exactly where the rule takes from one and the object is no leaf."""
    firing, rule, here = look.firing, look.rule, look.here
    name = firing.rule
    if rule.take[0] == 'me' and here.kind != 'leaf':
        if firing.me is None:
            return '`%s` takes from a child, so the firing must name it: `from` and one of %s is missing.' % (
                name, listed(here.children, 'or'))
        if firing.me not in here.children:
            return 'Object %d is no child of object %d; the children of that are %s.' % (
                firing.me, firing.object, listed(here.children))
    elif firing.me is not None:
        source = {'me': "its processor, since it is a leaf's rule", 'parent': 'the parent', 'none': 'nobody',
                  'kids': 'all children that the downlock awaits'}[rule.take[0]]
        return '`%s` takes from %s, so the firing names no child: `from %d` is too much.' % (name, source, firing.me)
    look.view = system.View(look.objects, here, rule, firing.me)
    return None


def no_head(look):
    """What the rule takes is at the front of its lists."""
    if look.view.there:
        return None
    side, wanted = look.rule.take
    here = look.here
    if side == 'kids':
        return no_responses(look, wanted)
    if side == 'parent' and here.parent is None:
        return '`%s` takes `%s` from the parent, and the root has none.' % (look.rule.name, wanted)
    source = {'parent': 'the parent'}.get(side, 'its processor' if here.kind == 'leaf' else 'child %s' % look.firing.me)
    return '`%s` takes `%s` from %s, but %s.' % (look.rule.name, wanted, source, front(look.view.queues[0], wanted))


def front(queue, wanted):
    """What is wrong with the front of a list from which a message of a name is wanted."""
    if not queue:
        return 'nothing waits there'
    text = 'the first message there is `%s:%d`' % (queue[0].id, queue[0].value)
    if any(item.id == wanted for item in queue):
        text += ', and no rule looks behind the first'
    return text


def no_responses(look, wanted):
    lock, name = look.here.down, look.rule.name
    if lock is None:
        return '`%s` takes the responses of the children that the downlock awaits, and the downlock is free.' % name
    if not lock.awaited:
        return '`%s` takes the responses of the children that the downlock awaits, and it awaits nobody.' % name
    wrong = [child for child in lock.awaited if head_of(look.objects[child]) != wanted]
    told_of = listed('child %d: %s' % (child, front(look.objects[child].lists['uprs'], wanted)) for child in wrong)
    return '`%s` takes `%s` of every child that the downlock awaits, %s; but %s.' % (
        name, wanted, listed(lock.awaited), told_of)


def head_of(child):
    return child.lists['uprs'][0].id if child.lists['uprs'] else None


def no_need(look):
    for side in ('up', 'down'):
        need, lock = getattr(look.rule, side), getattr(look.here, side)
        if not need_holds(need, lock):
            wanted = 'free' if need == 'free' else 'held for %s' % origin(need, look.here)
            return '`%s` needs the %slock %s (`need %s %s`), and it is %s.' % (
                look.rule.name, side, wanted, side, need, held(lock))
    return None


def origin(need, here):
    if need == 'child':
        return 'the processor' if here.kind == 'leaf' else 'a child'
    return {'parent': 'the parent', 'self': 'the object itself'}[need]


def held(lock):
    """How a lock is, in words."""
    if lock is None:
        return 'free'
    whom = {'cpu': 'the processor', 'parent': 'the parent', 'self': 'the object itself'}.get(
        lock.origin, 'child %s' % lock.origin)
    text = 'held for %s and the request `%s:%d`' % (whom, lock.id, lock.value)
    return text + ', awaiting %s' % listed(lock.awaited) if lock.awaited else text


def no_condition(look):
    for k, atom in enumerate(look.rule.guard):
        if not system.atom_holds(atom, look.view):
            return 'Condition %d of `%s` does not hold: `%s`, but %s.' % (
                k + 1, look.rule.name, condition_text(atom), against(atom, look))
    return None


def against(atom, look):
    """The value for which an atom doesn't hold."""
    name, more, chosen = atom
    view, here = look.view, look.here
    if name == 'field':
        return '%s is %s' % (more, here.fields[more])
    if name == 'asked':
        return 'the lock keeps %s' % ('no request' if view.kept is None else 'the request `%s`' % view.kept.id)
    if name in ('me', 'others') and view.requester is None:
        return 'there is no requester'
    if name == 'me':
        if view.requester not in here.dir:
            return 'the requester is the processor, and a leaf has no directory'
        return 'the entry of child %s is %s' % (view.requester, here.dir[view.requester])
    among = here.children if name == 'kids' else view.others()
    return entries(here, among, chosen, more)


def entries(here, among, chosen, more):
    if not among:
        return 'it has no children' if not here.children else 'it has no other child'
    wrong = [child for child in among if here.dir[child] not in chosen] if more == 'all' else among
    return listed('the entry of child %d is %s' % (child, here.dir[child]) for child in wrong)


def no_change(look):
    """All that the rule sets is there."""
    if system.new_values(look.rule, look.view) is not None:
        return None
    for place, what in look.rule.sets:
        if place == 'val' and look.view.value(what) is None:
            return no_value('sets `val := %s`' % what, what, look)
        if place == 'targets' and look.view.targets is None:
            return '`%s` sets `targets`, and there are none: it takes no responses of children.' % look.rule.name
        if place == 'me' and look.view.requester not in look.here.dir:
            return '`%s` sets `me`, and there is no requester with an entry in a directory.' % look.rule.name
    return None


def no_value(what, value, look):
    why = {'msg': 'it takes no message from `me` or `parent`', 'kept': 'no lock keeps a request for it',
           'rs': 'it takes no response of a child'}[value]
    return '`%s` %s, and there is no `%s`: %s.' % (look.rule.name, what, value, why)


def no_goal(look):
    """It has someone to send to, and something to send."""
    rule, view = look.rule, look.view
    if rule.send is None:
        return None
    to, chosen, message, value = rule.send
    if system.destination(look.protocol, rule, view, look.objects) is None:
        return '`%s` sends `%s` to %s.' % (rule.name, message, nobody(look, to, chosen))
    if view.value(value) is None:
        return no_value('sends `%s %s`' % (message, value), value, look)
    return None


def nobody(look, to, chosen):
    if to == 'parent':
        return 'the parent, and the root has none'
    if to == 'me' or (to == 'others' and look.view.requester is None):
        return '%s, and there is no requester' % ('the requester' if to == 'me' else 'all children but the requester')
    among = look.here.children if to == 'kids' else look.view.others()
    return 'each %s whose entry is in `%s`, and there is none: %s' % (
        'child' if to == 'kids' else 'other child', ' '.join(chosen), entries(look.here, among, [], 'any'))


def no_lock(look):
    """The lock that the rule takes has someone to be held for, and a request to keep."""
    rule, view = look.rule, look.view
    if rule.lock is None:
        return None
    if rule.lock[1] == 'child' and view.requester is None:
        return '`%s` takes a lock for the requester, and there is none.' % rule.name
    sent = (rule.send[2], 0) if rule.send else None
    if system.in_hand(look.protocol, rule, view, sent) is None:
        return '`%s` takes a lock, and there is no request for it to keep.' % rule.name
    return None


# Which are possible

def possible(protocol, state):
    """All firings that are possible in a state."""
    return [firing for line, objects in enumerate(state) for where in range(len(objects))
            for firing in candidates(protocol, state, line, where)
            if system.plan(protocol, state, firing) is not None]


def possible_lines(protocol, state, near=None):
    """Lines with the firings that are possible in a state, first those at the object of a firing."""
    found = possible(protocol, state)
    if near is not None:
        found.sort(key=lambda f: (f.line != near.line, f.object != near.object))
    if not found:
        return ['In that state no firing is possible.']
    verb = 'is' if len(found) == 1 else 'are'
    lines = ['In that state %s %s possible:' % (counted(len(found), 'firing'), verb)]
    lines += ['    ' + firing_text(firing) for firing in found[:SHOWN]]
    return lines + (['    and %d more' % (len(found) - SHOWN)] if len(found) > SHOWN else [])
