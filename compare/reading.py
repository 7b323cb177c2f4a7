"""Reads the documents of the jobs token by token, and finds their first fault."""
import re
from collections import namedtuple

from shipped import SHIPPED

NAME_LIMIT = 32
STATUS_LIMIT = 4
FIELD_LIMIT = 3
MESSAGE_LIMIT = 64
RULE_LIMIT = 64
ATOM_LIMIT = 16
SET_LIMIT = 8
GREATEST_VALUE = 18446744073709551615
GREATEST_NUMBER = 4294967295
HISTORY_LIMIT = 1000000

CLASSES = ('ext_req', 'ext_rsp', 'up_req', 'up_rsp', 'down_req', 'down_rsp')
RESERVED = frozenset('''
protocol use status message kind root mid leaf field init dir rule take need up down any free
child parent self when in all asked set lock send end me kids others none val targets msg kept
rs ext_req ext_rsp up_req up_rsp down_req down_rsp tree work lines at line history from modules
reg queue spontaneous do if and head deq enq value never feed
'''.split())


# Tokens

Token = namedtuple('Token', 'kind text start')

PIECE = re.compile(r'[ \t\r\n]+|#[^\n]*|([A-Za-z0-9_]+)|(:=|!=|[(),=|])|(.)', re.ASCII | re.DOTALL)


def tokens(text):
    """The tokens of a text in order, and then the end."""
    for match in PIECE.finditer(text):
        run, sign, other = match.groups()
        if run is not None:
            if run[0].isalpha():
                kind = 'word'
            else:
                kind = 'number' if run.isdigit() else 'bad'
            yield Token(kind, run, match.start())
        elif sign is not None:
            yield Token('sign', sign, match.start())
        elif other is not None:
            yield Token('bad', other, match.start())
    yield Token('end', '', len(text))


def place_of(text, start):
    """The line and the column of an offset, both from 1."""
    return text.count('\n', 0, start) + 1, start - (text.rfind('\n', 0, start) + 1) + 1


def value_of(digits):
    """The value of a number in digits, however many of them are leading zeros."""
    return int(digits.lstrip('0') or '0')


def within(digits, bound):
    """Whether a number written in digits is at most the bound."""
    return len(digits.lstrip('0')) <= 20 and value_of(digits) <= bound


# What may stand at a place

class Choice:
    """One kind of token that may stand at a place.

    `past` says which limit it passes, if it does, `taken` are the texts that would be repetitions,
    and `what` says in words what it names.
    """

    def __init__(self, kind, names=(), bound=None, past='', taken=(), what=''):
        self.kind, self.names, self.bound = kind, names, bound
        self.past, self.taken, self.what = past, taken, what

    def fits(self, token, limits, fresh):
        """Whether the token may stand here, with or without the limits and the rules on repetition."""
        if limits and self.past:
            return False
        if fresh and token.text in self.taken:
            return False
        return self.is_of_kind(token) and not (limits and self.is_past(token))

    def is_of_kind(self, token):
        if self.kind == 'reserved':
            return token.kind == 'word' and token.text in self.names
        if self.kind == 'used':
            return token.kind == 'word' and token.text not in RESERVED and token.text in self.names
        if self.kind == 'new':
            return token.kind == 'word' and token.text not in RESERVED
        if self.kind == 'sign':
            return token.kind == 'sign' and token.text in self.names
        if self.kind == 'zero':
            return token.kind == 'number' and within(token.text, 0)
        return token.kind == self.kind

    def is_past(self, token):
        if self.kind == 'new':
            return len(token.text) > NAME_LIMIT
        if self.kind == 'number':
            return not within(token.text, self.bound)
        return False


def words(*names, **more):
    return Choice('reserved', names, **more)


def used(names, what, **more):
    return Choice('used', names, what=what, **more)


def new(taken, what, **more):
    return Choice('new', taken=taken, what=what, **more)


def signs(*names):
    return Choice('sign', names)


def number(what, bound=GREATEST_NUMBER, **more):
    return Choice('number', bound=bound, what=what, **more)


def past(items, limit, what):
    """The sentence on the limit that one more item passes, or nothing."""
    return what % limit if len(items) >= limit else ''


class Fault(Exception):
    """A text fault at an offset, with the token there and what could have stood, or a fault of the setup."""

    def __init__(self, job, start, cause, token=None, choices=()):
        super().__init__(job, start, cause)
        self.job, self.start, self.cause = job, start, cause
        self.token, self.choices = token, choices


def cause_of(token, choices):
    """Why a token may not stand where these choices are."""
    if any(choice.fits(token, False, True) for choice in choices):
        return 'too many'
    if any(choice.fits(token, False, False) for choice in choices):
        return 'repeated'
    kinds = {choice.kind for choice in choices}
    if token.kind == 'word' and token.text not in RESERVED and 'used' in kinds and kinds <= {'used', 'reserved'}:
        return 'unknown'
    return 'expected'


# Protocols, trees, works and histories as read

Rule = namedtuple('Rule', 'name take up down guard sets free lock send')
Protocol = namedtuple('Protocol', 'name statuses messages kinds')
Node = namedtuple('Node', 'kind parent level start')
RawWork = namedtuple('RawWork', 'start lines lines_start self_count self_start entries')
Firing = namedtuple('Firing', 'line object rule me')


class Part:
    """One kind of a protocol: its fields with initial statuses, its directory's, its rules."""

    def __init__(self):
        self.fields, self.dir, self.rules = {}, None, {}


class Reader:
    """Reads a document token by token; the first token that can't stand is the fault."""

    def __init__(self, text):
        self.source = tokens(text)
        self.start = 0

    def step(self, *choices):
        """The next token, which is one of the choices."""
        token = next(self.source)
        self.start = token.start
        if not any(choice.fits(token, True, True) for choice in choices):
            raise Fault('text', token.start, cause_of(token, choices), token, choices)
        return token.text

    def word(self, *names):
        return self.step(words(*names))

    def protocol(self):
        if self.word('protocol', 'use') == 'use':
            name = self.step(used(SHIPPED, 'shipped protocol'))
            return Reader(SHIPPED[name]).protocol()
        name = self.step(new((), 'protocol'))
        self.word('status')
        statuses, messages = [], {}
        statuses.append(self.step(new(statuses, 'status')))
        then = self.step(new(statuses, 'status'))
        while then not in RESERVED:
            statuses.append(then)
            full = past(statuses, STATUS_LIMIT, 'a protocol has at most %d statuses')
            then = self.step(new(statuses, 'status', past=full), words('message', 'kind'))
        while then == 'message':
            message = self.step(new(list(statuses) + list(messages), 'message'))
            messages[message] = self.word(*CLASSES)
            full = past(messages, MESSAGE_LIMIT, 'a protocol has at most %d messages')
            then = self.step(words('message', past=full), words('kind'))
        protocol = Protocol(name, statuses, messages, {})
        self.word('root')
        protocol.kinds['root'] = self.kind(protocol, True)
        self.word('kind')
        self.word('mid')
        protocol.kinds['mid'] = self.kind(protocol, True)
        self.word('kind')
        self.word('leaf')
        protocol.kinds['leaf'] = self.kind(protocol, False)
        self.word('end')
        return protocol

    def kind(self, protocol, has_directory):
        part = Part()
        after = ('dir',) if has_directory else ('rule', 'end')
        then = self.step(words('field'), words(*after))
        while then == 'field':
            name = self.step(new(part.fields, 'field'))
            self.word('init')
            part.fields[name] = self.step(used(protocol.statuses, 'status'))
            full = past(part.fields, FIELD_LIMIT, 'a kind has at most %d fields')
            then = self.step(words('field', past=full), words(*after))
        if has_directory:
            self.word('init')
            part.dir = self.step(used(protocol.statuses, 'status'))
            then = self.word('rule', 'end')
        while then == 'rule':
            rule = self.rule(protocol, part)
            part.rules[rule.name] = rule
            full = past(part.rules, RULE_LIMIT, 'a kind has at most %d rules')
            then = self.step(words('rule', past=full), words('end'))
        return part

    def rule(self, protocol, part):
        name = self.step(new(part.rules, 'rule'))
        self.word('take')
        take = (self.word('me', 'parent', 'kids', 'none'), None)
        if take[0] != 'none':
            take = (take[0], self.step(used(protocol.messages, 'message')))
        self.word('need')
        self.word('up')
        up = self.word('any', 'free', 'child', 'parent', 'self')
        self.word('down')
        down = self.word('any', 'free', 'child', 'parent', 'self')
        guard, sets, free, lock, send = [], [], None, None, None
        then = self.word('when', 'set', 'free', 'lock', 'send', 'end')
        if then == 'when':
            then = self.guard(protocol, part, guard)
        if then == 'set':
            then = self.sets(protocol, part, sets)
        if then == 'free':
            free = self.word('up', 'down')
            then = self.word('lock', 'send', 'end')
        if then == 'lock':
            side = self.word('up', 'down')
            lock = (side, self.word('child', 'parent', 'self'))
            then = self.word('send', 'end')
        if then == 'send':
            send = self.send(protocol)
            self.word('end')
        return Rule(name, take, up, down, guard, sets, free, lock, send)

    def guard(self, protocol, part, guard):
        """Reads the atoms and answers the word after them."""
        after = (signs(','), words('set', 'free', 'lock', 'send', 'end'))
        while True:
            full = past(guard, ATOM_LIMIT, 'a guard has at most %d conditions')
            first = self.step(used(part.fields, 'field', past=full), words('me', 'kids', 'others', 'asked', past=full))
            if first == 'asked':
                guard.append(('asked', None, self.step(used(protocol.messages, 'message'))))
                then = self.step(*after)
            else:
                if first in ('kids', 'others'):
                    test = (first, self.word('all', 'any'))
                else:
                    self.word('in')
                    test = ('me', None) if first == 'me' else ('field', first)
                chosen, then = self.statuses(protocol, *after)
                guard.append(test + (chosen,))
            if then != ',':
                return then

    def statuses(self, protocol, *after):
        """Reads a set of statuses and what comes after it."""
        chosen = [self.step(used(protocol.statuses, 'status'))]
        while True:
            then = self.step(used(protocol.statuses, 'status', taken=chosen), *after)
            if then not in protocol.statuses:
                return chosen, then
            chosen.append(then)

    def sets(self, protocol, part, sets):
        """Reads the assignments and answers the word after them."""
        while True:
            full = past(sets, SET_LIMIT, 'a rule sets at most %d places')
            taken = [place for place, _ in sets]
            place = self.step(used(part.fields, 'field', past=full, taken=taken),
                              words('val', 'me', 'targets', past=full, taken=taken))
            self.step(signs(':='))
            sets.append((place, self.value() if place == 'val' else self.step(used(protocol.statuses, 'status'))))
            then = self.step(signs(','), words('free', 'lock', 'send', 'end'))
            if then != ',':
                return then

    def value(self):
        text = self.step(words('val', 'msg', 'kept', 'rs'), Choice('zero', what='value'))
        return text if text in RESERVED else '0'

    def send(self, protocol):
        to = self.word('me', 'parent', 'kids', 'others')
        chosen = None
        if to in ('kids', 'others'):
            self.word('in')
            chosen, message = self.statuses(protocol, used(protocol.messages, 'message'))
        else:
            message = self.step(used(protocol.messages, 'message'))
        return to, chosen, message, self.value()

    def tree(self):
        """The nodes in text order."""
        self.word('tree')
        self.word('root')
        nodes = [Node('root', None, 1, self.start)]
        self.step(signs('('))
        opened, empty = [0], True
        while opened:
            then = self.step(words('leaf', 'mid'), *([] if empty else [signs(')')]))
            if then == ')':
                opened.pop()
                continue
            nodes.append(Node(then, opened[-1], len(opened) + 1, self.start))
            empty = then == 'mid'
            if then == 'mid':
                self.step(signs('('))
                opened.append(len(nodes) - 1)
        return nodes

    def work(self, protocol):
        self.word('work')
        start = self.start
        self.word('lines')
        lines, lines_start = value_of(self.step(number('number of lines'))), self.start
        self.word('self')
        self_count, self_start = value_of(self.step(number('number of self firings'))), self.start
        entries = []
        then = self.word('at', 'end')
        while then == 'at':
            where, where_start = value_of(self.step(number('object'))), self.start
            self.word('line')
            line, line_start = value_of(self.step(number('line'))), self.start
            requests = []
            entries.append((where, where_start, line, line_start, requests))
            then = self.step(used(protocol.messages, 'message'), words('at', 'end'))
            while then in protocol.messages:
                message_start = self.start
                requests.append((then, value_of(self.step(number('value', GREATEST_VALUE))), message_start))
                then = self.step(used(protocol.messages, 'message'), words('at', 'end'))
        return RawWork(start, lines, lines_start, self_count, self_start, entries)

    def history(self, protocol):
        names = {name for part in protocol.kinds.values() for name in part.rules}
        self.word('history')
        firings = []
        then = self.step(number('line'), words('end'))
        while then != 'end':
            line, where = value_of(then), value_of(self.step(number('object')))
            rule, me = self.step(used(names, 'rule')), None
            full = past(range(len(firings) + 1), HISTORY_LIMIT, 'a history has at most %d firings')
            then = self.step(words('from'), number('line', past=full), words('end'))
            if then == 'from':
                me = value_of(self.step(number('child')))
                then = self.step(number('line', past=full), words('end'))
            firings.append(Firing(line, where, rule, me))
        return firings

    def protocol_alone(self):
        protocol = self.protocol()
        self.step(Choice('end'))
        return protocol

    def protocol_and_tree(self):
        protocol = self.protocol()
        nodes = self.tree()
        self.step(Choice('end'))
        return protocol, nodes

    def setup(self):
        protocol = self.protocol()
        nodes = self.tree()
        work = self.work(protocol)
        self.step(Choice('end'))
        return protocol, nodes, work

    def document(self):
        protocol = self.protocol()
        nodes = self.tree()
        work = self.work(protocol)
        history = self.history(protocol)
        self.step(Choice('end'))
        return protocol, nodes, work, history
