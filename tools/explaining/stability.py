"""Tells how a request that waits for its answer loses its guard or its value: the rules, the state, before and after."""
from discipline import after, atom_at, changes_value, guard_at

from explaining.phrases import listed, quoted
from explaining.places import marked_rule
from explaining.rules import condition_text


def told(text, protocol, refusal):
    """What may happen while the rule waits, in which state, and what that takes away."""
    kind, rule, _, (partner, at) = refusal
    then = after(protocol, partner, at)
    lost_guard, lost_value = not guard_at(rule.guard, then), changes_value(rule, partner)
    lines = marked_rule(text, kind, rule.name, ['when'] * lost_guard + ['value'] * lost_value)
    lines += ['', '`%s` sends a request up, and then the object waits for the answer. Meanwhile it still serves its' % rule.name,
              'parent, and nothing that it does for the parent may take away what `%s` relied on: its guard, and' % rule.name,
              'the value where it sent `val`. But this may happen meanwhile:', '']
    for other in partner:
        lines += marked_rule(text, kind, other.name, ['set'] * (other is partner[-1]))
    lines += ['', 'The least state in which it does:', ''] + table(kind, at, then) + ['', 'Before:']
    lines += held(rule) + happening(partner, at)
    lines.append('After %s:' % listed(quoted(other.name for other in partner)))
    lines += guard_lost(rule, then) if lost_guard else []
    return lines + (value_lost(rule, partner) if lost_value else [])


def table(kind, at, then):
    """The abstract states before and after, side by side."""
    rows = [('', 'before', 'after')] + [(name, at.fields[name], then.fields[name]) for name in at.fields]
    if kind != 'leaf':
        rows.append(('kids', ','.join(at.kids), ','.join(then.kids)))
    if len(rows) == 1:
        return ['    a leaf without fields has one state']
    widths = [max(len(row[k]) for row in rows) for k in range(3)]
    lines = ['    ' + ' | '.join(cell.ljust(width) for cell, width in zip(row, widths)).rstrip() for row in rows]
    return lines + ['', '`kids` are the statuses that occur among the entries of the children.'] * (kind != 'leaf')


def held(rule):
    if not rule.guard:
        return ['  - `%s` has no guard' % rule.name]
    return ['  - the guard of `%s` holds: `%s`' % (rule.name, ', '.join(map(condition_text, rule.guard)))]


def happening(partner, at):
    """Why a partner can happen in a state."""
    if len(partner) == 1:
        return held(partner[0])
    first, back = partner
    met = [status for status in at.kids if status in first.send[1]]
    asks = '  - `%s` asks the children whose entry is in `%s`, and there are some: %s' % (
        first.name, ' '.join(first.send[1]), listed(met))
    return held(first) + [asks] + held(back)


def guard_lost(rule, then):
    wrong = [condition_text(atom) for atom in rule.guard if not atom_at(atom, then, None)]
    return ['  - the guard of `%s` does not hold any more: not %s' % (rule.name, listed(quoted(wrong)))]


def value_lost(rule, partner):
    value = dict(partner[-1].sets)['val']
    return ['  - `%s` has sent `val`, and `%s` has set `val := %s`, which may be another value' % (
        rule.name, partner[-1].name, value)]
