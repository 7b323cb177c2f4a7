"""Histories with their blocks, in the printed order."""
from collections import namedtuple

import order
import system
from discipline import template

# What a history that runs leads to: its steps, the blocks, and the state.
Grouped = namedtuple('Grouped', 'steps blocks state')

CHANNELS = ('uprq', 'uprs', 'down')


def channels_of(state):
    """The channels of a state by the identity of their lists, which stay the same lists."""
    return {id(here.lists[lane]): (lane, line, place)
            for line, objects in enumerate(state) for place, here in enumerate(objects) for lane in CHANNELS}


def upward_rules(protocol):
    """The rules that send a request up, each as its kind and name."""
    return {(kind, name) for kind, part in protocol.kinds.items() for name, rule in part.rules.items()
            if template(protocol, kind, rule) in ('rq_up', 'rq_up_self')}


def steps_of(protocol, nodes, state, history, upward=None):
    """The steps of a history, which the state makes; a history that doesn't run has no steps from there on."""
    channels = channels_of(state)
    upward = upward_rules(protocol) if upward is None else upward
    steps = []
    for place, firing in enumerate(history):
        plan = system.plan(protocol, state, firing)
        if plan is None:
            break
        node = nodes[firing.object]
        taken = [channels[id(queue)] for queue in plan.queues if id(queue) in channels]
        sent = [channels[id(goal)] for goal in plan.goals if id(goal) in channels]
        is_upward = (node.kind, firing.rule) in upward
        system.fire(state, firing, plan, place)
        steps.append(order.Step(firing.line, firing.object, node.level, taken, sent, is_upward))
    return steps


def grouped(protocol, nodes, work, history, upward=None):
    """What a history leads to from the start, or None where it doesn't run."""
    state = system.start_state(protocol, nodes, work)
    steps = steps_of(protocol, nodes, state, history, upward)
    if len(steps) < len(history):
        return None
    blocks = [(number, [history[i] for i in places]) for number, places in order.printed(steps)]
    return Grouped(steps, blocks, state)
