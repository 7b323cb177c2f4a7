"""Tells why a protocol is refused: which rule breaks which clause, and what the clause asks."""
from discipline import CLAUSES, REQUESTS, TEMPLATES, Look, atom_fits, classes, form_of, set_fits, shape, value_fits

from explaining import stability
from explaining.phrases import bulleted, counted, listed, quoted
from explaining.places import marked_rule
from explaining.rules import condition_text
from explaining.templates import described, needs

ORDINALS = ['first', 'second', 'third', 'fourth', 'fifth', 'sixth', 'seventh', 'eighth']


def told(text, protocol, refusal):
    """The lines for a protocol that isn't disciplined."""
    kind, rule, clause, breach = refusal
    order = ORDINALS[CLAUSES.index(clause)]
    lines = ['The protocol is not disciplined. Rule `%s` of kind %s is the first that breaks a clause,' % (rule.name, kind),
             'and the first clause that it breaks is `%s`, the %s of the eight:' % (clause, order), '']
    look = Look(protocol, kind, rule)
    shape(look)
    if breach:
        return lines + stability.told(text, protocol, refusal)
    parts, reasons = TELL[clause](look)
    return lines + marked_rule(text, kind, rule.name, parts) + [''] + reasons


def level(look):
    if look.kind == 'root':
        parts = ['take'] * (look.taken == 'parent') + ['send'] * (look.to == 'parent')
        return parts, ['The root has no parent, so no rule of it takes from `parent` or sends to `parent`.']
    parts = ['take'] * (look.taken == 'kids') + ['send'] * (look.to in ('kids', 'others'))
    return parts, ['A leaf has no children but its processor, so no rule of it takes from `kids`, or sends to `kids` or `others`.']


def class_(look):
    """The message taken, or the one sent, has a class of another way."""
    takes, sends = classes(look.kind)
    parts, reasons = [], []
    for part, verb, side, cls, name, fit in [
            ('take', 'takes from', look.taken, look.taken_class, look.rule.take[1], takes.get(look.taken)),
            ('send', 'sends to', look.to, look.sent_class, look.rule.send and look.rule.send[2], sends.get(look.to))]:
        if fit is not None and cls not in fit:
            parts.append(part)
            declared = [other for other, its in look.protocol.messages.items() if its in fit]
            reasons.append('`%s` is of class `%s`. What a rule of kind %s %s `%s` is of class %s, %s.' % (
                name, cls, look.kind, verb, side, listed(quoted(fit), 'or'),
                'as ' + listed(quoted(declared), 'or') if declared else 'and no message here is'))
    return parts, reasons


def shape_(look):
    """No template has what the rule takes, frees, locks and sends."""
    ours = form_of(look.taken, look.taken_class), look.rule.free, look.rule.lock, form_of(look.to, look.sent_class)
    reasons = ['Each rule is of one of fourteen templates, by what it takes, frees, locks and sends. No template',
               '%s.' % ', '.join(form_words(k, form) for k, form in enumerate(ours))]
    near = []
    for name, its in TEMPLATES.items():
        theirs = its.take, its.free, its.lock, its.send
        wrong = [k for k in range(4) if ours[k] != theirs[k]]
        if len(wrong) == 1:
            k = wrong[0]
            near.append('`%s`, which %s, if the rule %s' % (name, described(name, look.kind), form_words(k, theirs[k])))
    if near:
        reasons += ['One part otherwise, it would have the shape of'] + bulleted(near)
    return ['take', 'free', 'lock', 'send'], reasons


def form_words(k, form):
    """What a rule takes, frees, locks or sends, as words with a verb."""
    if k == 0:
        return 'takes nothing' if form == 'none' else 'takes a %s' % of_whom(form, 'of')
    if k == 1:
        return 'frees %s' % ('the %slock' % form if form else 'no lock')
    if k == 2:
        return 'holds %s' % ('the %slock for `%s`' % form if form else 'no lock')
    return 'sends %s' % ('a %s' % of_whom(form, 'to') if form else 'nothing')


def of_whom(form, word):
    side, sort = form.split()
    return '%s %s `%s`' % (sort, word, side)


def locks(look):
    template = look.template()
    parts = ['up'] * (look.rule.up != template.up) + ['down'] * (look.rule.down != template.down)
    return parts, ['It has the shape of template `%s`, which %s.' % (look.name, described(look.name, look.kind)),
                   'Such a rule has `%s`.' % needs(look.name)]


def silent(look):
    return ['set'], ['It has the shape of template `%s`, which %s.' % (look.name, described(look.name, look.kind)),
                     'Such a rule sends a request and sets nothing: what the answer allows is set where the answer comes.']


def scope(look):
    parts = [('when', k) for k, atom in enumerate(look.rule.guard) if atom[0] in ('me', 'others')]
    return parts, ['It has the shape of template `%s`, which %s.' % (look.name, described(look.name, look.kind)),
                   'Whether such a rule can fire may depend on fields, on `kids`, and not on who asks: its guard reads',
                   'neither `me` nor `others`.']


def names(look):
    """Each name that stands where it may have no meaning."""
    parts, reasons = [], ['It has the shape of template `%s`, which %s.' % (look.name, described(look.name, look.kind))]
    for k, atom in enumerate(look.rule.guard):
        if not atom_fits(look, atom):
            parts.append(('when', k))
            reasons.append('`%s`: %s.' % (condition_text(atom), why_not_atom(look, atom)))
    for k, (place, what) in enumerate(look.rule.sets):
        if not set_fits(look, place, what):
            parts.append(('set', k))
            reasons.append('`%s := %s`: %s.' % (place, what, why_not(look, what if place == 'val' else place)))
    if look.to is not None and not value_fits(look, look.sent_value):
        parts.append('value')
        reasons.append('`%s`: %s.' % (look.sent_value, why_not(look, look.sent_value)))
    return parts, reasons


def why_not_atom(look, atom):
    name, _, chosen = atom
    if name == 'asked' and look.protocol.messages[chosen] not in REQUESTS:
        return 'a lock keeps a request, and `%s` is of class `%s`' % (chosen, look.protocol.messages[chosen])
    return why_not(look, name)


def why_not(look, name):
    if name in ('me', 'others', 'kids') and look.kind == 'leaf':
        return 'a leaf has no directory'
    return {'me': 'the rule works for no child', 'others': 'the rule works for no child',
            'asked': 'the rule takes no response, so there is no lock whose request is meant',
            'kept': 'the rule takes no response, so there is no lock whose request is meant',
            'msg': 'the rule takes no single message', 'rs': 'the rule takes no responses of children',
            'targets': 'the rule takes no responses of children'}[name]


TELL = {'level': level, 'class': class_, 'shape': shape_, 'locks': locks, 'silent': silent, 'scope': scope, 'names': names}


def accepted(protocol, template):
    """The lines for a disciplined protocol: its rules by templates."""
    rules = [(kind, rule) for kind, part in protocol.kinds.items() for rule in part.rules.values()]
    lines = ['The protocol is disciplined: each of its %s meets all eight clauses.' % counted(len(rules), 'rule')]
    lines += ['So each history of it can be regrouped into whole transactions, one after another, that run to the same state.', '']
    for kind, part in protocol.kinds.items():
        lines.append('%s:' % ('Root' if kind == 'root' else kind.capitalize()))
        found = {}
        for rule in part.rules.values():
            found.setdefault(template(protocol, kind, rule), []).append(rule.name)
        for name in TEMPLATES:
            if name in found:
                lines.append('  %-15s %s: %s' % (name, described(name, kind), listed(quoted(found[name]))))
        lines += ['  no rules'] * (not found)
    return lines
