"""The printed order of a history, as it is defined: slow and plain, and written apart from the program.

A history is given as one `Step` for each firing, in order; a place is a place in that list. A channel
is the list from an object to its parent or from a parent to a child, on one line, by any name of its own.
"""
from collections import Counter, namedtuple

# `taken` and `sent` are the channels of the messages that the firing takes and appends, those of the children in their
# order. Requests and answers of processors have no channel. `is_upward` says that the template is rq_up or rq_up_self.
Step = namedtuple('Step', 'line object level taken sent is_upward')


def senders(steps):
    """For each firing the places of those that sent the messages that it takes: the k-th taken is the k-th sent."""
    sent, count, result = {}, Counter(), []
    for place, step in enumerate(steps):
        for channel in step.sent:
            sent.setdefault(channel, []).append(place)
    for step in steps:
        result.append([sent[channel][count[channel]] for channel in step.taken])
        count.update(step.taken)
    return result


def numbers(steps):
    """For each firing the number of its transaction: the place of the firing that starts it."""
    result = []
    for place, its in enumerate(senders(steps)):
        result.append(result[its[0]] if its else place)
    return result


def anchors(steps, number):
    """For each transaction the first of its firings at its top object, the least of those of least level."""
    result = {}
    for t in set(number):
        places = [i for i in range(len(steps)) if number[i] == t]
        top = min((steps[i].level, steps[i].object) for i in places)[1]
        result[t] = min(i for i in places if steps[i].object == top)
    return result


def normal(steps, number):
    """The places in normal order: requests that go up before their transaction's anchor are moved to just before it."""
    anchor = anchors(steps, number)
    late = [i for i, step in enumerate(steps) if step.is_upward and i < anchor[number[i]]]
    order = []
    for i in range(len(steps)):
        if i not in late:
            order += [k for k in late if anchor[number[k]] == i] + [i]
    return order


def precedes(steps, number, order):
    """The pairs of transactions of one line of which the first has a firing before one of the second at some object."""
    at = {}
    for i in order:
        at.setdefault((steps[i].line, steps[i].object), []).append(number[i])
    pairs = {(t, u) for its in at.values() for k, u in enumerate(its) for t in its[:k]}
    return {(t, u) for t, u in pairs if t != u}


def printed(steps):
    """The blocks in the printed order: each transaction's number and its places in normal order.

    At each turn comes the transaction of least number of which all that precede it are out.
    """
    number = numbers(steps)
    order = normal(steps, number)
    before = {t: set() for t in number}
    for t, u in precedes(steps, number, order):
        before[u].add(t)
    left, blocks = set(number), []
    while True:
        ready = [t for t in left if not before[t] & left]
        if not ready:
            return blocks
        left.remove(min(ready))
        blocks.append((min(ready), [i for i in order if number[i] == min(ready)]))


def are_blocks(steps, lengths):
    """Whether the steps, cut into lists of these lengths, are blocks.

    A block is of one line; its first firing takes nothing or from a processor, and each later one takes only messages
    that were sent earlier in the block, and at least one.
    """
    sent_by, start = senders(steps), 0
    for length in lengths:
        places = range(start, start + length)
        if sent_by[start] or len({steps[i].line for i in places}) > 1:
            return False
        if any(not sent_by[i] or min(sent_by[i]) < start for i in places[1:]):
            return False
        start += length
    return start == len(steps)
