"""Tells why a text is no document: what stands at its first fault, and what could have stood there."""
import difflib

from reading import NAME_LIMIT, RESERVED, tokens, value_of
from shipped import SHIPPED

from explaining.phrases import a_or_an, bulleted, listed, marked, quoted

SHOWN = 40
# What the words of modules declare.
NOUNS = {'reg': 'a register', 'queue': 'a queue'}


def told(text, fault):
    """The lines for a text fault."""
    read = [token for token in tokens(text[:fault.start])][:-1]
    lines = ['The text is no document: here is the first token at which no document goes on%s.' % context(read), '']
    lines += marked(text, fault.start, len(fault.token.text)) + ['']
    lines += ['Here stands %s.' % described(fault.token)] + reasons(fault, read)
    could = [line for choice in fault.choices for line in possible(choice)]
    if not could:
        return lines + ['Nothing could stand here: the list before it is full.']
    return lines + ['Here could stand:'] + bulleted(could)


def context(read):
    """In which part of the document the tokens end, as words after a place."""
    inside = []
    for k, token in enumerate(read):
        if token.text in ('kind', 'rule', 'modules') and k + 1 < len(read):
            # The rules of modules have a number before their name.
            name = read[k + 1:k + 3] if read[k + 1].kind == 'number' else read[k + 1:k + 2]
            inside.append('%s `%s`' % (token.text, ' '.join(part.text for part in name)))
        elif token.text in ('tree', 'work', 'history', 'feed'):
            inside = ['the %s' % token.text]
        elif token.text == 'end' and inside:
            inside.pop()
    return ', in ' + ' of '.join(reversed(inside)) if inside else ''


# What stands there

def described(token):
    if token.kind == 'end':
        return 'nothing more: the text ends'
    if token.kind == 'word' and token.text in RESERVED:
        return 'the reserved word `%s`' % token.text
    if token.kind == 'word' and len(token.text) > NAME_LIMIT:
        return 'a word of %d bytes' % len(token.text)
    if token.kind == 'bad':
        return described_bad(token)
    shown = token.text if len(token.text) <= 40 else token.text[:37] + '...'
    return 'the %s `%s`' % ({'word': 'name'}.get(token.kind, token.kind), shown)


def described_bad(token):
    text = token.text
    if len(text) > 1 or text == '_':
        return '`%s`, which is no word, since it begins with no letter, and no number, since not all are digits' % text
    shown = 'the sign `%s`' % text if '!' <= text <= '~' else 'the byte 0x%02x' % ord(text)
    return shown + ', which can stand only in a comment'


# Why it can't

def reasons(fault, read):
    """The sentences that say why the token can't stand there, for the fault's cause."""
    tell = {'too many': past_limit, 'repeated': repeated, 'unknown': unknown, 'expected': unexpected}
    return tell[fault.cause](fault, read)


def past_limit(fault, _):
    for choice in fault.choices:
        if not choice.is_of_kind(fault.token):
            continue
        if choice.past:
            return ['It passes a limit (`too many`): %s.' % choice.past]
        if choice.kind == 'new' and choice.is_past(fault.token):
            return ['It is too long (`too many`): a name has at most %d bytes.' % NAME_LIMIT]
        if choice.kind == 'number' and choice.is_past(fault.token):
            return ['It is too great (`too many`): the %s is at most %d.' % (choice.what, choice.bound)]
    return ['It passes a limit (`too many`).']


def repeated(fault, _):
    choice = next((c for c in fault.choices if c.is_of_kind(fault.token) and fault.token.text in c.taken), None)
    if choice is None:
        return ['There is a rule of this number and this name already, and with the same child or none (`repeated`).']
    name = fault.token.text
    if choice.kind == 'new':
        also = ' (statuses and messages share one name space)' if choice.what in ('status', 'message') else ''
        return ['`%s` is declared already%s (`repeated`).' % (name, also)]
    if choice.what == 'status':
        return ['`%s` stands in this set already (`repeated`).' % name]
    return ['This rule sets `%s` already (`repeated`).' % name]


def unknown(fault, read):
    name = fault.token.text
    wanted = list(dict.fromkeys(c.what for c in fault.choices if c.kind == 'used'))
    lines = ['It is not the name of %s that may stand here (`unknown`).' % listed(map(a_or_an, wanted), 'or')]
    if len(name) > NAME_LIMIT:
        return lines + ['No name has more than %d bytes, so none that is declared can be this one.' % NAME_LIMIT]
    other = declared(read).get(name)
    if other:
        lines.append('The document has it as %s.' % listed(other))
    names = [known for c in fault.choices if c.kind == 'used' for known in c.names if known not in c.taken]
    near = difflib.get_close_matches(name, names, 3)
    if near:
        lines.append('Perhaps %s is meant.' % listed(quoted(near), 'or'))
    return lines + (rules_of_object(read) if wanted == ['rule'] else [])


def unexpected(fault, read):
    token, kinds = fault.token, {choice.kind for choice in fault.choices}
    if token.kind == 'word' and token.text in RESERVED and kinds & {'new', 'used'}:
        return ['A name could stand here, but a reserved word is never a name (`expected`).']
    if token.kind == 'number' and 'zero' in kinds:
        return ['The only number that may stand here is 0 (`expected`).']
    if token.kind == 'end':
        return ['The document is not finished (`expected`).']
    if kinds == {'end'}:
        return ['The document was finished before it (`expected`).']
    return ['Nothing of its sort can stand here (`expected`).']


def rules_of_object(read):
    """Which rules the object has whose number is the last of these tokens of a history."""
    texts = [token.text for token in read]
    tree = texts[texts.index('tree'):texts.index('work')]
    kinds = [text for text in tree if text in ('root', 'mid', 'leaf')]
    place = value_of(texts[-1])
    if place >= len(kinds):
        return ['The tree has no object %d: its objects are 0 to %d.' % (place, len(kinds) - 1)]
    noun = 'a rule of kind ' + kinds[place]
    names = [name for name, nouns in declared(read).items() if noun in nouns]
    own = 'these rules: ' + ', '.join(quoted(names)) if names else 'no rules'
    return ['Object %d is %s, and has %s.' % (place, 'the root' if place == 0 else 'a ' + kinds[place], own)]


def declared(read):
    """What each name declared in these tokens is, as a list of nouns."""
    if len(read) > 1 and read[0].text == 'use':
        read = [token for token in tokens(SHIPPED[read[1].text])] + read[2:]
    found, kind, statuses = {}, '', False
    for token, then in zip(read, read[1:]):
        statuses = token.text == 'status' or (statuses and token.text not in RESERVED)
        kind = then.text if token.text == 'kind' else kind
        if statuses and then.text not in RESERVED:
            note(found, then.text, 'a status')
        if token.text == 'message':
            note(found, then.text, 'a message')
        if token.text in NOUNS:
            note(found, then.text, NOUNS[token.text])
        if token.text in ('field', 'rule'):
            note(found, then.text, 'a %s of kind %s' % (token.text, kind))
    return found


def note(found, name, noun):
    if noun not in found.setdefault(name, []):
        found[name].append(noun)


# What could stand

def possible(choice):
    """Lines for what one choice lets stand, or none where it passes a limit."""
    if choice.past:
        return []
    if choice.kind == 'end':
        return ['the end of the text']
    if choice.kind == 'zero':
        return ['`0`']
    if choice.kind == 'number':
        return ['a number, the %s, at most %d' % (choice.what, choice.bound)]
    if choice.kind == 'new':
        taken = ' that is not taken' if choice.taken else ''
        return ['a name for a %s%s: at most %d bytes, and not reserved' % (choice.what, taken, NAME_LIMIT)]
    names = sorted(name for name in choice.names if name not in choice.taken)
    if choice.kind == 'used':
        return [used_names(choice.what, names)] if names or not choice.taken else []
    return [listed(quoted(order(choice.names, choice.taken)), 'or')] if names else []


def order(names, taken):
    return [name for name in names if name not in taken]


def used_names(what, names):
    if not names:
        return 'the name of a %s, but none is declared' % what
    more = ', and %d more' % (len(names) - SHOWN) if len(names) > SHOWN else ''
    return 'the name of a %s: %s%s' % (what, ', '.join(quoted(names[:SHOWN])), more)
