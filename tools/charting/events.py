"""What a chart shows of a history: its firings and the messages between them, line by line."""
from collections import namedtuple

import grouping
import order
import system

# A firing at its place in the history. `asked` is the processor's request that it takes, and `says` what it sends, as
# texts.
Event = namedtuple('Event', 'place object rule number asked says')

# A message of a transaction from an object to another; `taken` is the place of the firing that takes it, or None.
Arrow = namedtuple('Arrow', 'number source target sent taken')

# A line of a document: the objects that are drawn, the events in order, the blocks as numbers with places, the arrows.
Line = namedtuple('Line', 'line objects events blocks arrows')


class Object(namedtuple('Object', 'place kind parent')):
    def title(self):
        return '%d %s' % (self.place, self.kind)


def message_text(message):
    return '%s:%d' % message


def arrows_of(nodes, steps, numbers):
    """The arrows of all lines, by line."""
    taken_by = {}
    for place, (step, its) in enumerate(zip(steps, order.senders(steps))):
        for channel, sender in zip(step.taken, its):
            taken_by[channel, sender] = place
    arrows = {}
    for place, step in enumerate(steps):
        for lane, line, where in step.sent:
            parent = nodes[where].parent
            source, target = (parent, where) if lane == 'down' else (where, parent)
            taken = taken_by.get(((lane, line, where), place))
            arrows.setdefault(line, []).append(Arrow(numbers[place], source, target, place, taken))
    return arrows


def texts_of(protocol, nodes, work, history):
    """For each firing the processor's request that it takes and the message that it sends, as texts or None."""
    state = system.start_state(protocol, nodes, work)
    for place, firing in enumerate(history):
        plan = system.plan(protocol, state, firing)
        here = state[firing.line][firing.object]
        asked = message_text(plan.taken[0][:2]) if any(q is here.lists['req'] for q in plan.queues) else None
        yield asked, message_text(plan.sent) if plan.sent else None
        system.fire(state, firing, plan, place)


def of_document(protocol, nodes, work, history):
    """The lines of a document that have firings."""
    state = system.start_state(protocol, nodes, work)
    steps = grouping.steps_of(protocol, nodes, state, history)
    numbers = order.numbers(steps)
    events = [Event(place, firing.object, firing.rule, numbers[place], asked, says) for place, (firing, (asked, says))
              in enumerate(zip(history, texts_of(protocol, nodes, work, history)))]
    arrows, blocks = arrows_of(nodes, steps, numbers), order.printed(steps)
    for line in sorted({firing.line for firing in history}):
        its = [event for event in events if history[event.place].line == line]
        drawn = {event.object for event in its}
        drawn |= {end for arrow in arrows.get(line, []) for end in (arrow.source, arrow.target)}
        objects = [Object(k, nodes[k].kind, nodes[k].parent) for k in sorted(drawn)]
        its_blocks = [(number, places) for number, places in blocks if history[places[0]].line == line]
        yield Line(line, objects, its, its_blocks, arrows.get(line, []))
