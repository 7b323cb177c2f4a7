"""Protocols as they were read, written out again as tokens."""
import itertools


def protocol_tokens(protocol):
    tokens = ['protocol', protocol.name, 'status'] + protocol.statuses
    for name, cls in protocol.messages.items():
        tokens += ['message', name, cls]
    for kind, part in protocol.kinds.items():
        tokens += ['kind', kind]
        for name, status in part.fields.items():
            tokens += ['field', name, 'init', status]
        tokens += ['dir', 'init', part.dir] if part.dir else []
        for rule in part.rules.values():
            tokens += rule_tokens(rule)
        tokens.append('end')
    return tokens + ['end']


def separated(lists):
    """Lists of tokens as one, with commas between them."""
    return list(itertools.chain.from_iterable([','] + tokens for tokens in lists))[1:]


def atom_tokens(atom):
    name, more, chosen = atom
    if name == 'asked':
        return [name, chosen]
    return ([more, 'in'] if name == 'field' else [name, more or 'in']) + chosen


def rule_tokens(rule):
    tokens = ['rule', rule.name, 'take', rule.take[0]] + [rule.take[1]] * (rule.take[1] is not None)
    tokens += ['need', 'up', rule.up, 'down', rule.down]
    tokens += ['when'] * bool(rule.guard) + separated(map(atom_tokens, rule.guard))
    tokens += ['set'] * bool(rule.sets) + separated([place, ':=', what] for place, what in rule.sets)
    tokens += ['free', rule.free] if rule.free else []
    tokens += ['lock', *rule.lock] if rule.lock else []
    if rule.send:
        to, chosen, message, sent = rule.send
        tokens += ['send', to] + (['in'] + chosen if chosen else []) + [message, sent]
    return tokens + ['end']


# The canonical texts, as lines

def line_of(tokens):
    return ' '.join(tokens).replace(' ,', ',')


def in_order(protocol, rule):
    """The rule with the statuses of its sets in order of declaration."""
    def ordered(chosen):
        return [status for status in protocol.statuses if status in chosen]
    guard = [atom if atom[0] == 'asked' else atom[:2] + (ordered(atom[2]),) for atom in rule.guard]
    send = rule.send
    if send and send[1]:
        send = (send[0], ordered(send[1])) + send[2:]
    return rule._replace(guard=guard, send=send)


def protocol_lines(protocol):
    lines = ['protocol ' + protocol.name, 'status ' + ' '.join(protocol.statuses)]
    lines += ['message %s %s' % message for message in protocol.messages.items()]
    for kind, part in protocol.kinds.items():
        lines += ['kind ' + kind] + ['field %s init %s' % field for field in part.fields.items()]
        lines += ['dir init ' + part.dir] if part.dir else []
        lines += [line_of(rule_tokens(in_order(protocol, rule))) for rule in part.rules.values()] + ['end']
    return lines + ['end']


def node_text(nodes, place):
    below = [node_text(nodes, child) for child, node in enumerate(nodes) if node.parent == place]
    return nodes[place].kind + ('(%s)' % ' '.join(below) if below else '')


def tree_line(nodes):
    return 'tree ' + node_text(nodes, 0)


def work_lines(work):
    """One line for each leaf and line that have requests, by both numbers."""
    lists = {}
    for where, _, line, _, requests in work.entries:
        lists.setdefault((where, line), []).extend(requests)
    lines = ['work lines %d self %d' % (work.lines, work.self_count)]
    for (where, line), requests in sorted(lists.items()):
        if requests:
            lines.append('at %d line %d ' % (where, line) + ' '.join('%s %d' % request[:2] for request in requests))
    return lines + ['end']
