"""Modules as the design plays them: a rule waits where a queue that it appends to has no room."""
from collections import Counter

import playing
from playing import Deq, Enq
from verilogging.design import queues_of


def has_room(rule, state, depths):
    """Whether the queues have room for what a rule appends once the heads are taken."""
    acts = [action.act for action in rule.actions if all(playing.holds(atom, state) for atom in action.condition)]
    sent = Counter(act.queue for act in acts if isinstance(act, Enq))
    taken = {act.queue for act in acts if isinstance(act, Deq) and state.queues[act.queue]}
    return all(len(state.queues[queue]) - (queue in taken) + more <= depths[queue] for queue, more in sent.items())


def play(modules, items, depth, most):
    """The lines of a play with bounded queues, and whether a rule ever waited."""
    state = playing.start(modules, items)
    depths = {queue.name: queue.depth for queue in queues_of(modules, items, depth)}
    rules = [rule for rule in modules.rules if not rule.spontaneous]
    fired, has_waited = 0, False
    while True:
        chosen = None
        for rule in rules:
            if playing.can(rule, state):
                if has_room(rule, state, depths):
                    chosen = rule
                    break
                has_waited = True
        if chosen is None or fired == most:
            return playing.play_lines(modules, state, playing.Played(fired, chosen is None)), has_waited
        playing.step(chosen, state)
        fired += 1
