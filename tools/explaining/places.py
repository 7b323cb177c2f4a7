"""Finds where the parts of a rule stand in the text of a document, and shows the rule with parts of it marked."""
from reading import place_of, tokens

from explaining.phrases import marked, readable

# The longest text of a rule that is shown whole.
SHOWN = 4000

KEYWORDS = ('when', 'set', 'free', 'lock', 'send', 'end')


def tokens_of_rule(text, kind, name):
    """The tokens of a rule of a protocol that is written out and reads, from `rule` to `end`."""
    found, within, before = [], None, None
    for token in tokens(text):
        if before is not None and before.text == 'kind':
            within = token.text
        if not found and before is not None and before.text == 'rule' and within == kind and token.text == name:
            found.append(before)
        if found:
            found.append(token)
            if token.text == 'end':
                return found
        before = token
    raise ValueError('no rule %s of kind %s' % (name, kind))


def span(part):
    """The offset and the length of some tokens that stand one after another."""
    return part[0].start, part[-1].start + len(part[-1].text) - part[0].start


def places(rule):
    """The spans of a rule's parts: `take`, `up`, `down`, and as far as they are there the others, items with their number."""
    need = next(k for k, token in enumerate(rule) if token.text == 'need')
    found = {'take': span(rule[2:need]), 'up': span(rule[need + 1:need + 3]), 'down': span(rule[need + 3:need + 5])}
    starts = [k for k in range(need + 5, len(rule)) if rule[k].text in KEYWORDS]
    for start, stop in zip(starts, starts[1:]):
        word, part = rule[start].text, rule[start:stop]
        found[word] = span(part)
        if word in ('when', 'set'):
            found.update(((word, k), span(item)) for k, item in enumerate(items(part[1:])))
        if word == 'send':
            found['value'] = span(part[-1:])
    return found


def items(part):
    """The pieces of some tokens between commas."""
    found = [[]]
    for token in part:
        if token.text == ',':
            found.append([])
        else:
            found[-1].append(token)
    return found


def marked_rule(text, kind, name, parts):
    """The lines of the text with a rule, and carets below some parts of it."""
    rule = tokens_of_rule(text, kind, name)
    found = places(rule)
    spans = [found[part] for part in parts if part in found]
    start, length = span(rule)
    if length > SHOWN:
        return [line for span in spans or [(start, 4)] for line in marked(text, *span)]
    line, _ = place_of(text, start)
    lines = []
    for k, piece in enumerate(text[start:start + length].split('\n')):
        head = '%5d | ' % (line + k)
        signs = ''.join('^' if any(s <= start + i < s + n for s, n in spans) else ' ' for i in range(len(piece)))
        lines += [head + readable(piece)] + [' ' * len(head) + signs.rstrip()] * ('^' in signs)
        start += len(piece) + 1
    return lines
