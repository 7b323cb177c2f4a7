"""Documents for the comparison, made from a seed.

Each maker takes a random generator and a number, and yields about that many documents as
bytes. `KINDS` names the makers with their share of the whole.
"""
import random

import reading
from limits import lengths, limits, protocol_lengths
from protocols import random_head, random_protocols, shipped_walks, singles, with_histories
from shipped import SHIPPED
from texts import GOOD, NUMBERS, SMALL, data, layout, words_of
from verdicts import disciplined_walks, shipped_texts, verdicts

RESERVED = sorted(reading.RESERVED)
SIGNS = ['(', ')', ',', ':=', '!=', '=', '|']
BAD = ['_x', '1a', ':', '!', '-', '"', '\x00', '\x0b', '\x0c', '\x7f', '\x80', '\xff', '{', '0_', '.']


def good_text(rng):
    """A good document: one of the fixed ones, a random one, or one of the shipped protocols."""
    form = rng.random()
    if form < 0.35:
        return rng.choice(GOOD)
    if form < 0.65:
        return next(disciplined_walks(rng, 1)).decode('latin-1')
    if form < 0.9:
        return next(with_histories(rng, random_head(rng), 4, 0)).decode('latin-1')
    name = rng.choice(sorted(SHIPPED))
    return SHIPPED[name] + 'tree root(mid(leaf) leaf) work lines 1 self 1 at 2 line 0 Ld 0 end history 0 2 ld_miss end\n'


def each_cut(rng, number):
    """The fixed documents cut at each byte; the number is of no account."""
    for text in GOOD:
        for k in range(len(text) + 1):
            yield data(text[:k])


def cuts(rng, number):
    """Good documents cut at random bytes."""
    made = 0
    while made < number:
        text = good_text(rng)
        for _ in range(60):
            made += 1
            yield data(text[:rng.randint(0, len(text))] + rng.choice(['', '', '\n', ' # end', '\t']))


def stand_ins(rng, tokens):
    """One token of each kind that may be put in the place of another."""
    names = [t for t in tokens if t[0].isalpha() and t not in reading.RESERVED] or ['x']
    return [rng.choice(RESERVED), rng.choice(RESERVED), 'frob', 'a' * 33, 'Z' * 32, rng.choice(names),
            rng.choice(names), rng.choice(names), rng.choice(NUMBERS), rng.choice(NUMBERS), '0',
            rng.choice(BAD), 'end', 'kind', ','] + SIGNS


def changed(tokens, k, new):
    return ' '.join(tokens[:k] + new + tokens[k + 1:])


def each_token(rng, number):
    """Each token of the fixed documents left out, doubled and replaced; the number is of no account."""
    for text in GOOD:
        tokens = words_of(text)
        for k in range(len(tokens)):
            stand = stand_ins(rng, tokens) + (RESERVED if len(tokens) < 200 else [])
            for new in [[], [tokens[k]] * 2] + [[t] for t in stand]:
                yield data(changed(tokens, k, new))


def token_changes(rng, number):
    """One token of a good document changed."""
    made = 0
    while made < number:
        tokens = words_of(good_text(rng))
        for _ in range(60):
            made += 1
            yield data(random_change(rng, tokens))


def random_change(rng, tokens):
    """A token replaced, left out, doubled, put in or exchanged with the next."""
    k = rng.randrange(len(tokens))
    form = rng.random()
    if form < 0.6:
        return changed(tokens, k, [rng.choice(stand_ins(rng, tokens))])
    if form < 0.7:
        return changed(tokens, k, [])
    if form < 0.8:
        return changed(tokens, k, [tokens[k]] * 2)
    if form < 0.9:
        return changed(tokens, k, [rng.choice(stand_ins(rng, tokens)), tokens[k]])
    return changed(tokens, k, tokens[k + 1:k + 2] + [tokens[k]])


def byte_changes(rng, number):
    """Random bytes, and good documents with some bytes changed."""
    for _ in range(number):
        form = rng.random()
        if form < 0.1:
            yield bytes(rng.randrange(256) for _ in range(rng.randint(0, 40)))
        elif form < 0.2:
            count = rng.randint(0, 30)
            yield data(''.join(rng.choice(' \n\t\r#()=:!,|_aI0use protocol\x80') for _ in range(count)))
        elif form < 0.3:
            tokens = [rng.choice(RESERVED + SIGNS + BAD + NUMBERS + ['a', 'b']) for _ in range(rng.randint(0, 12))]
            yield data(layout(rng, rng.choice([[], ['use', 'msi_inclusive', 'tree', 'root', '(']]) + tokens))
        elif form < 0.45:
            yield data(layout(rng, words_of(good_text(rng))))
        else:
            yield spoiled(rng, data(rng.choice(GOOD)))


def spoiled(rng, document):
    """A document with one to three bytes put in, left out or replaced."""
    for _ in range(rng.choice([1, 1, 1, 2, 3])):
        k = rng.randrange(len(document) + 1)
        byte = bytes([rng.choice(b' \n\r\t#_:=!,()|09aZ\x00\x7f\x80\xff') if rng.random() < 0.7 else rng.randrange(256)])
        form = rng.random()
        if form < 0.4:
            document = document[:k] + byte + document[k:]
        elif form < 0.7:
            document = document[:k] + document[k + 1:]
        else:
            document = document[:k] + byte + document[k + 1:]
    return document


# Documents of the job `check`

def protocol_of(text):
    """The tokens of the protocol with which a document begins."""
    tokens = words_of(text)
    return tokens[:tokens.index('tree')]


def protocol_cuts(rng, number):
    """The protocols of the fixed documents cut after each token, and with a token too many; the number is of no account."""
    for text in GOOD:
        tokens = protocol_of(text)
        for k in range(len(tokens) + 1):
            yield data(' '.join(tokens[:k]))
        for more in RESERVED + SIGNS + BAD + ['frob', '0']:
            yield data(' '.join(tokens + [more]))
    yield data(SMALL)


def protocol_changes(rng, number):
    """One token of a protocol changed."""
    made = 0
    while made < number:
        tokens = protocol_of(good_text(rng))
        for _ in range(60):
            made += 1
            yield data(random_change(rng, tokens))


# The makers with their shares of the number of documents, and the job; those without a share make a fixed number.
KINDS = [
    ('each_cut', each_cut, None, 'group'),
    ('each_token', each_token, None, 'group'),
    ('limits', limits, None, 'group'),
    ('cuts', cuts, 0.12, 'group'),
    ('tokens', token_changes, 0.20, 'group'),
    ('bytes', byte_changes, 0.12, 'group'),
    ('singles', singles, 0.05, 'group'),
    ('protocols', random_protocols, 0.02, 'group'),
    ('disciplined_walks', disciplined_walks, 0.14, 'group'),
    ('walks', shipped_walks, 0.07, 'group'),
    ('lengths', lengths, None, 'group'),
    ('verdicts', verdicts, 0.20, 'check'),
    ('protocol_changes', protocol_changes, 0.08, 'check'),
    ('protocol_cuts', protocol_cuts, None, 'check'),
    ('shipped', shipped_texts, None, 'check'),
    ('protocol_lengths', protocol_lengths, None, 'check'),
]


def documents(kind, seed, number):
    """The documents of one kind, for a seed."""
    for name, maker, _, _ in KINDS:
        if name == kind:
            yield from maker(random.Random('%s %d' % (kind, seed)), number)
