"""Random modules, feeds and trees, good and broken, as tokens and as texts."""
import accepted
import emitting
import make
import protocols
import reading
import writing
from designs import design, disciplined, with_changes
from shipped import SHIPPED
from texts import data, layout, words_of

REGISTERS = ['a', 'b2', 'f0_0', 'uo_1', 'Val', 'x_', 'r5']
QUEUES = ['q', 'qd_1', 'Q_', 'me2', 's']
NAMES = ['t', 'u', 'gets_hit', 'a', 'q', 'n' * 32]
LIMITS = ['0', '00', '4294967295', '18446744073709551615', '0018446744073709551615', '7', '65536']

TINY = '''modules tiny
reg a 0
queue q
queue r
rule 0 t when head q = 1 do deq q, a := value q, enq r 2 a end
end
feed q 1 7 q 1 9 end
'''

# Every construct of the module language stands in this one.
RICH = '''modules all_parts # a comment
reg a 0 reg b 007 reg c 18446744073709551615
queue q queue r
rule 0 t when head q = 1 | a != 2 | b = 7, c != 0 do deq q, a := value q, if a = 0 and b != 0 and head q = 1 enq r 2 a end
rule 0 t from 3 spontaneous when never, a = 0 do b := 0 end
rule 0 t from 4 do if head r = 2 deq r, if a = 1 c := b, enq q 4294967295 18446744073709551615 end
rule 4294967295 u spontaneous end
rule 1 u spontaneous do enq r 0 value r end
rule 1 t when never end
rule 2 t when head r = 2, head r = 2 do deq r, deq r, deq q, a := 1, a := 2, b := a, enq r 2 b, enq r 3 b end
end
feed q 1 7 r 2 18446744073709551615 q 4294967295 0 end
'''

# Rules that repeat others, whatever stands after them.
REPEATED = '''modules again reg a 0
rule 0 t end rule 0 t from 3 end rule 0 t from 4 end rule 00 u end rule 1 t end rule 0 t from 5
spontaneous when a = 0 end end feed end'''

GOOD = [TINY, RICH, REPEATED]


# Modules as one might write them by hand

class Hand:
    """Writes modules whose rules often can fire."""

    def __init__(self, rng):
        self.rng = rng
        self.registers = rng.sample(REGISTERS, rng.choice([0, 1, 2, 3, 4]))
        self.queues = rng.sample(QUEUES, rng.choice([0, 1, 2, 2, 3, 4]))
        self.small = rng.choice([1, 2, 3])

    def number(self):
        return str(self.rng.randint(0, self.small)) if self.rng.random() < 0.95 else self.rng.choice(LIMITS)

    def id(self):
        return str(self.rng.randint(0, self.small)) if self.rng.random() < 0.97 else self.rng.choice(LIMITS[:3])

    def atom(self):
        """A condition, or nothing where there is neither a register nor a queue."""
        forms = ['head'] * 2 * bool(self.queues) + ['=', '!='] * bool(self.registers)
        form = self.rng.choice(forms or [None])
        if form == 'head':
            return ['head', self.rng.choice(self.queues), '=', self.id()]
        return [self.rng.choice(self.registers), form, self.number()] if form else []

    def atoms(self, most, between):
        """One to so many conditions with a sign or word between them."""
        found = [self.atom() for _ in range(self.rng.randint(1, most))]
        return [token for atom in found if atom for token in [between] + atom][1:]

    def clause(self):
        return (self.rng.random() > 0.06 and self.atoms(3, '|')) or ['never']

    def value(self):
        forms = ['number'] + ['register'] * 2 * bool(self.registers) + ['value'] * 2 * bool(self.queues)
        form = self.rng.choice(forms)
        if form == 'number':
            return [self.number()]
        return [self.rng.choice(self.registers)] if form == 'register' else ['value', self.rng.choice(self.queues)]

    def act(self):
        """What an action does, or nothing where there is neither a register nor a queue."""
        form = self.rng.choice(['deq', 'deq', 'enq'] * bool(self.queues) + [':='] * 2 * bool(self.registers) or [None])
        if form == 'deq':
            return ['deq', self.rng.choice(self.queues)]
        if form == 'enq':
            return ['enq', self.rng.choice(self.queues), self.id()] + self.value()
        return [self.rng.choice(self.registers), ':='] + self.value() if form else []

    def action(self):
        act = self.act()
        return ['if'] + self.atoms(3, 'and') + act if act and self.rng.random() < 0.3 else act

    def listed(self, word, items):
        """The word and the items with commas between them, or nothing where there is no item."""
        tokens = [token for item in items if item for token in [','] + item]
        return [word] + tokens[1:] if tokens else []

    def rule(self, heading):
        place, name, child = heading
        tokens = ['rule', place, name] + ([] if child is None else ['from', child])
        tokens += ['spontaneous'] * (self.rng.random() < 0.1)
        tokens += self.listed('when', [self.clause() for _ in range(self.rng.choice([0, 1, 1, 2, 3]))])
        return tokens + self.listed('do', [self.action() for _ in range(self.rng.choice([0, 1, 2, 3, 5]))]) + ['end']

    def headings(self):
        """Numbers, names and children of the rules, no two the same."""
        chosen = {}
        for _ in range(self.rng.choice([0, 1, 2, 3, 4, 6, 9])):
            place, child = self.rng.randint(0, 2), self.rng.choice([None, None, 0, 1, 4294967295])
            name, digits = self.rng.choice(NAMES), str(place).zfill(self.rng.choice([1, 1, 1, 3]))
            chosen[place, name, child] = digits, name, None if child is None else str(child)
        return list(chosen.values())

    def modules(self):
        tokens = ['modules', self.rng.choice(NAMES)]
        for register in self.registers:
            tokens += ['reg', register, self.number()]
        for queue in self.queues:
            tokens += ['queue', queue]
        for heading in self.headings():
            tokens += self.rule(heading)
        return tokens + ['end']

    def feed(self):
        items = []
        for _ in range(self.rng.choice([0, 1, 3, 6]) if self.queues else 0):
            items += [self.rng.choice(self.queues), self.id(), self.number()]
        return ['feed'] + items + ['end']


def by_hand(rng):
    hand = Hand(rng)
    return hand.modules() + hand.feed()


# Modules of protocols

def protocol_words(rng):
    """An accepted protocol as tokens: a shipped one, one that is changed, or a design."""
    form = rng.random()
    if form < 0.35:
        return ['use', rng.choice(sorted(SHIPPED))]
    return accepted.changed(rng, rng.choice(sorted(SHIPPED))) if form < 0.6 else writing.protocol_tokens(disciplined(rng))


def refused_words(rng):
    """A protocol as tokens that mostly isn't disciplined."""
    form = rng.random()
    if form < 0.4:
        return writing.protocol_tokens(with_changes(rng, disciplined(rng), 1))
    return writing.protocol_tokens(design(rng, 2, (0, 1, 1, 2))) if form < 0.7 else protocols.Writer(rng, 0.2).protocol()


def small_tree(rng):
    return rng.choice([protocols.tree(rng, 3, 6), protocols.tree(rng, 4, 8), ['tree', 'root', '(', 'leaf', ')']])


def chain(deep, below):
    """Mids below each other, as tokens."""
    return ['mid', '('] * deep + below + [')'] * deep


def any_tree(rng):
    """A tree of any size, around and past the limits now and then."""
    form = rng.random()
    if form < 0.75:
        return rng.choice([small_tree(rng), protocols.deep_tree(rng)])
    if form < 0.85:
        return ['tree', 'root', '('] + ['leaf'] * rng.randint(5, 9) + [')']
    if form < 0.93:
        return ['tree', 'root', '('] + chain(rng.randint(4, 8), ['leaf'] * rng.choice([1, 1, 8, 9])) + [')']
    mids = [['mid', '('] + ['leaf'] * rng.randint(6, 8) + [')'] for _ in range(rng.randint(2, 8))]
    return ['tree', 'root', '('] + [token for mid in mids for token in mid] + [')']


def read_emit(tokens):
    """The protocol and the nodes of a document of the job `emit`."""
    return reading.Reader(' '.join(tokens)).protocol_and_tree()


def emitted(rng):
    """The modules of an accepted protocol, with a feed of requests and now and then of messages, as a text."""
    protocol, nodes = read_emit(protocol_words(rng) + small_tree(rng))
    modules = emitting.modules_of(protocol, nodes)
    asked = [number for number, cls in enumerate(protocol.messages.values()) if cls == 'ext_req']
    lists = [queue for queue in modules.queues if queue.startswith('xr_')]
    items = []
    for _ in range(rng.choice([0, 1, 4, 10, 25]) if asked else 0):
        items += [rng.choice(lists), str(rng.choice(asked)), str(rng.randint(0, 99))]
    for _ in range(rng.choice([0, 0, 0, 1, 3])):
        items += [rng.choice(modules.queues), str(rng.randrange(len(protocol.messages) + 1)), str(rng.randint(0, 9))]
    return '\n'.join(emitting.modules_lines(modules)) + '\nfeed %s end\n' % ' '.join(items)


# Broken ones

def broken(rng, tokens):
    """The tokens as a text that is changed in a place, or cut."""
    if rng.random() < 0.2:
        text = ' '.join(tokens)
        return text[:rng.randint(0, len(text))] + rng.choice(['', '', '\n', ' # end', '\t'])
    return make.random_change(rng, tokens)


def rules_again(rng):
    """Rules of few names, of which one mostly repeats another, with any token after it."""
    tokens = 'modules m reg a 0 queue q'.split()
    for _ in range(rng.randint(2, 6)):
        tokens += ['rule', rng.choice(['0', '00', '1']), rng.choice(['t', 'u'])]
        tokens += rng.choice([[], [], ['from', rng.choice(['0', '00', '1', '2', '3', '4294967296', 'a'])]])
        tokens += ['spontaneous'] * (rng.random() < 0.2) + rng.choice([[], ['when', 'a', '=', '0'], ['do', 'deq', 'q']])
        tokens += ['end'] if rng.random() < 0.9 else [rng.choice(make.RESERVED + make.SIGNS + make.BAD + ['frob', '5', 'a'])]
    return tokens + rng.choice([['end', 'feed', 'end'], ['end'], []])


def each_cut():
    """The fixed texts cut at each byte."""
    for text in GOOD:
        for k in range(len(text) + 1):
            yield data(text[:k])


def each_token(rng):
    """Each token of the fixed texts left out, doubled and replaced by one of each kind and by each reserved word."""
    for text in GOOD:
        tokens = words_of(text)
        for k in range(len(tokens)):
            for new in [[], [tokens[k]] * 2] + [[token] for token in make.stand_ins(rng, tokens) + make.RESERVED]:
                yield data(make.changed(tokens, k, new))


def of_play(rng):
    """A document of the job `play` as bytes."""
    form = rng.random()
    if form < 0.45:
        return data(layout(rng, by_hand(rng)))
    if form < 0.7:
        return data(emitted(rng))
    if form < 0.78:
        return data(layout(rng, rules_again(rng)))
    if form < 0.82:
        return data(broken(rng, words_of(rng.choice(GOOD))))
    return data(broken(rng, words_of(emitted(rng)) if form < 0.86 else by_hand(rng)))


def of_emit(rng):
    """A document of the job `emit` as bytes."""
    form = rng.random()
    tokens = (protocol_words(rng) if form < 0.7 else refused_words(rng)) + any_tree(rng)
    if 0.5 < form < 0.7:
        return data(broken(rng, tokens))
    return data(layout(rng, tokens))
