"""The rules on trees and works: the first that is broken is the fault of the setup."""
from reading import Fault

OBJECT_LIMIT = 64
CHILD_LIMIT = 8
LEVEL_LIMIT = 8
LINE_LIMIT = 16
SELF_LIMIT = 1000
REQUEST_LIMIT = 100000
START_LIMIT = 200000


def check_tree(nodes):
    """Raises the first fault of the tree."""
    children = {}
    for place, node in enumerate(nodes):
        if place >= OBJECT_LIMIT:
            raise Fault('setup', node.start, 'objects')
        children[node.parent] = children.get(node.parent, 0) + 1
        if children[node.parent] > CHILD_LIMIT:
            raise Fault('setup', node.start, 'children')
        if node.level > LEVEL_LIMIT:
            raise Fault('setup', node.start, 'levels')


def check_work(work, protocol, nodes):
    """Raises the first fault of the work, for a lawful tree."""
    if not 1 <= work.lines <= LINE_LIMIT:
        raise Fault('setup', work.lines_start, 'lines')
    if work.self_count > SELF_LIMIT:
        raise Fault('setup', work.self_start, 'self')
    count = 0
    for where, where_start, line, line_start, requests in work.entries:
        if where >= len(nodes) or nodes[where].kind != 'leaf':
            raise Fault('setup', where_start, 'object')
        if line >= work.lines:
            raise Fault('setup', line_start, 'line')
        for message, _, start in requests:
            if protocol.messages[message] != 'ext_req':
                raise Fault('setup', start, 'request')
            count += 1
            if count > REQUEST_LIMIT:
                raise Fault('setup', start, 'requests')
    if starts(work, nodes) > START_LIMIT:
        raise Fault('setup', work.start, 'starts')


def starts(work, nodes):
    """How many transactions a work may start."""
    return sum(len(entry[4]) for entry in work.entries) + work.self_count * len(nodes) * work.lines
