"""The canonical text of a rule as it was read, and of its parts."""


def condition_text(atom):
    name, more, chosen = atom
    if name == 'asked':
        return 'asked ' + chosen
    head = {'field': '%s in' % more, 'me': 'me in'}.get(name, '%s %s' % (name, more))
    return head + ' ' + ' '.join(chosen)


def send_text(send):
    to, chosen, message, value = send
    return ' '.join([to] + (['in'] + chosen if chosen else []) + [message, value])


def rule_text(rule):
    parts = ['rule', rule.name, 'take', rule.take[0]] + ([rule.take[1]] if rule.take[1] else [])
    parts += ['need', 'up', rule.up, 'down', rule.down]
    if rule.guard:
        parts += ['when', ', '.join(map(condition_text, rule.guard))]
    if rule.sets:
        parts += ['set', ', '.join('%s := %s' % pair for pair in rule.sets)]
    if rule.free:
        parts += ['free', rule.free]
    if rule.lock:
        parts += ['lock'] + list(rule.lock)
    if rule.send:
        parts += ['send', send_text(rule.send)]
    return ' '.join(parts + ['end'])
