"""Tells which rule of trees or works a document breaks."""
import setup
from reading import tokens

from explaining.phrases import counted, listed, marked, quoted


def told(text, fault, protocol, nodes, work):
    """The lines for a setup fault."""
    length = len(next(tokens(text[fault.start:fault.start + 4096])).text)
    lines = ['The document reads, but its %s breaks the rule `%s`, here first:' % (part_of(fault), fault.cause), '']
    lines += marked(text, fault.start, length) + ['']
    return lines + RULES[fault.cause](fault, protocol, nodes, work)


def of_made(text, fault, nodes, work, count):
    """The lines for a lawful work that has too much with so many generated requests."""
    lines = ['The document has a lawful work, but with %s the work breaks the rule `%s`:'
             % (counted(count, 'generated request'), fault.cause), '']
    lines += marked(text, fault.start, len('work')) + ['']
    own = sum(len(entry[4]) for entry in work.entries)
    if fault.cause == 'requests':
        return lines + ['A work has at most %s requests in all; these would be %s and %s.'
                        % (format(setup.REQUEST_LIMIT, ','), format(own, ','), format(count, ','))]
    return lines + starts_lines(own + count, nodes, work)


def part_of(fault):
    return 'tree' if fault.cause in ('objects', 'children', 'levels') else 'work'


def objects(fault, protocol, nodes, work):
    return ['A tree has at most %d objects; this one has %d, and this would be number %d, counted from 0.'
            % (setup.OBJECT_LIMIT, len(nodes), setup.OBJECT_LIMIT)]


def node_at(fault, nodes):
    return next(place for place, node in enumerate(nodes) if node.start == fault.start)


def children(fault, protocol, nodes, work):
    place = node_at(fault, nodes)
    parent = nodes[place].parent
    count = sum(node.parent == parent for node in nodes)
    return ['An object has at most %d children; object %d, the %s above this %s, has %d.'
            % (setup.CHILD_LIMIT, parent, nodes[parent].kind, nodes[place].kind, count)]


def levels(fault, protocol, nodes, work):
    return ['A tree has at most %d levels, the root being level 1; this %s is at level %d.'
            % (setup.LEVEL_LIMIT, nodes[node_at(fault, nodes)].kind, nodes[node_at(fault, nodes)].level)]


def lines(fault, protocol, nodes, work):
    return ['There are 1 to %d lines; this work has %d.' % (setup.LINE_LIMIT, work.lines)]


def self_firings(fault, protocol, nodes, work):
    return ['`self` is at most %s; here it is %d.' % (format(setup.SELF_LIMIT, ','), work.self_count)]


def entry_object(fault, protocol, nodes, work):
    where = next(entry[0] for entry in work.entries if entry[1] == fault.start)
    leaves = [place for place, node in enumerate(nodes) if node.kind == 'leaf']
    if where >= len(nodes):
        what = 'The tree has no object %d: its objects are 0 to %d.' % (where, len(nodes) - 1)
    else:
        kind = 'the root' if where == 0 else 'a mid'
        what = 'Object %d is %s, and only leaves serve a processor.' % (where, kind)
    return [what, 'The leaves of this tree: %s.' % listed(leaves)]


def entry_line(fault, protocol, nodes, work):
    line = next(entry[2] for entry in work.entries if entry[3] == fault.start)
    return ['There is no line %d: the work has %s, counted from 0.' % (line, counted(work.lines, 'line'))]


def request(fault, protocol, nodes, work):
    name = next(message for entry in work.entries for message, _, start in entry[4] if start == fault.start)
    outer = [message for message, message_class in protocol.messages.items() if message_class == 'ext_req']
    return ['`%s` is of class `%s`, and a processor sends only messages of class `ext_req`, here %s.'
            % (name, protocol.messages[name], listed(quoted(outer), 'or') or 'none')]


def requests(fault, protocol, nodes, work):
    count = sum(len(entry[4]) for entry in work.entries)
    return ['A work has at most %s requests in all; this one has %s.'
            % (format(setup.REQUEST_LIMIT, ','), format(count, ','))]


def starts(fault, protocol, nodes, work):
    return starts_lines(sum(len(entry[4]) for entry in work.entries), nodes, work)


def starts_lines(count, nodes, work):
    own = work.self_count * len(nodes) * work.lines
    return ['A work may start at most %s transactions: its requests, and `self` times objects times lines.'
            % format(setup.START_LIMIT, ','),
            'Here that is %d + %d x %d x %d = %s.'
            % (count, work.self_count, len(nodes), work.lines, format(count + own, ','))]


RULES = {
    'objects': objects, 'children': children, 'levels': levels, 'lines': lines, 'self': self_firings,
    'object': entry_object, 'line': entry_line, 'request': request, 'requests': requests, 'starts': starts,
}
