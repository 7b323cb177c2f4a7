"""Documents that meet each limit and pass it by one."""
from texts import NUMBERS, SMALL, data


def built(**parts):
    """The small document with some of its parts replaced."""
    fixed = dict(name='one', statuses='I S', messages='message Ld ext_req message LdR ext_rsp',
                 root='', root_rules='', mid='', mid_rules='', fields='field st init S', rules='',
                 rule='ld_hit', take='me Ld', when='when st in S', set='', locks='', send='send me LdR val',
                 tree='root(leaf)', lines='1', self='0', at='at 1 line 0 Ld 0', history='0 1 ld_hit')
    fixed.update(parts)
    return data('''protocol {name} status {statuses} {messages}
kind root {root} dir init I {root_rules} end
kind mid {mid} dir init I {mid_rules} end
kind leaf {fields}
rule {rule} take {take} need up free down free {when} {set} {locks} {send} end {rules} end end
tree {tree}
work lines {lines} self {self} {at} end
history {history} end
'''.format(**fixed))


def name_limits():
    for length in (31, 32, 33, 34, 200):
        long = 'n' * length
        yield built(name=long)
        yield built(statuses='I S ' + long)
        yield built(statuses='I S M E ' + long)
        yield built(statuses='I %s S' % long)
        yield built(messages='message Ld ext_req message LdR ext_rsp message %s up_req' % long)
        yield built(fields='field st init S field %s init I' % long)
        yield built(root='field %s init I' % long)
        yield built(rule=long)
        yield built(rule=long, history='0 1 ' + long)
        for place in ('fields', 'take', 'when', 'set', 'send', 'at', 'history'):
            text = {'fields': 'field st init %s', 'take': 'me %s', 'when': 'when %s in S', 'set': 'set %s := S',
                    'send': 'send me %s val', 'at': 'at 1 line 0 %s 0', 'history': '0 1 %s'}[place] % long
            yield built(**{place: text})
        yield data('use ' + long)


def item_limits():
    for count in range(1, 8):
        names = ['I', 'S', 'M', 'E', 'X', 'Y', 'Z'][:count]
        yield built(statuses=' '.join(names))
        yield built(statuses=' '.join(names + ['I']))
        yield built(statuses=' '.join(names + ['5']))
        yield built(statuses=' '.join(names + ['end']))
    for count in range(0, 6):
        fields = ' '.join('field f%d init I' % k for k in range(count))
        for place in ('root', 'mid'):
            yield built(**{place: fields})
            yield built(**{place: fields + ' field'})
            yield built(**{place: fields + ' field f0 init I'})
        yield built(fields=fields + ' field st init S')
        yield built(fields=fields, when='')
    for count in (60, 61, 62, 63, 64):
        messages = 'message Ld ext_req message LdR ext_rsp ' + ' '.join('message m%d up_req' % k for k in range(count))
        for more in ('', ' message', ' message m0 up_req', ' message 5', ' message frob'):
            yield built(messages=messages + more)
    for count in (62, 63, 64, 65):
        rules = ' '.join('rule r%d take none need up free down free end' % k for k in range(count))
        for place in ('root_rules', 'mid_rules', 'rules'):
            for more in ('', ' rule', ' rule r0', ' frob', ' field x init I'):
                yield built(**{place: rules + more})
    for count in (14, 15, 16, 17):
        for more in ('', ', st in S', ', frob in S', ', S in S', ', 5', ', =', ', kids all S', ', asked Ld', ', me in I',
                     ', others any I', ', end', ', set', ',', ' S', ' I', ' I I', ', ' + 'a' * 33, ', \x80'):
            yield built(when='when ' + ', '.join(['st in S'] * count) + more)
            yield built(when='when ' + ', '.join(['st in S'] * (count - 1) + ['asked Ld']) + more)


def set_limits():
    fields = 'field st init S field b init I field c init I'
    places = ['st := S', 'b := I', 'c := I', 'val := val', 'me := I', 'targets := S']
    for count in range(1, 7):
        some = places[:count]
        for more in ([], ['st := I'], ['targets := I'], ['val := 0'], ['me := S'], ['frob := S'], ['5'], ['end'],
                     ['S := S'], ['st := I', 'st := S', 'b := I'], ['val := 0', 'val := 0', 'val := 0']):
            yield built(fields=fields, set='set ' + ', '.join(some + more))
    for text in ('I I', 'I S', 'S I S', 'I S M', 'Ld', 'st', 'kind', '5', ',', 'S, S', 'S S,', 'S frob', 'S Ld'):
        yield built(when='when st in ' + text)
        yield built(when='when kids all ' + text)
        yield built(when='when others any ' + text)
        for to in ('kids', 'others'):
            yield built(send='send %s in %s LdR val' % (to, text))
            yield built(mid_rules='rule r take none need up any down any send %s in %s LdR val end' % (to, text))
    for text in ('0', '00', '1', '000000000000000000000000000000', '18446744073709551616', 'val', 'msg', 'kept', 'rs',
                 'frob', 'Ld', 'end', '_0', '0x', ':=', '0 0'):
        yield built(send='send me LdR ' + text)
        yield built(set='set val := ' + text)


def number_limits():
    numbers = NUMBERS + ['0' * 10000, '0' * 10000 + '5', '9' * 10000, '1' + '0' * 19, '4294967294',
                         '18446744073709551614', '184467440737095516150', '1e3', '-1', '+1', '0x1', 'frob', 'end', '1_0']
    for text in numbers:
        yield built(lines=text)
        yield built(self=text)
        yield built(at='at %s line 0 Ld 0' % text)
        yield built(at='at 1 line %s Ld 0' % text)
        yield built(at='at 1 line 0 Ld %s' % text)
        yield built(at='at 1 line 0 Ld %s Ld 1' % text)
        yield built(history='%s 1 ld_hit' % text)
        yield built(history='0 %s ld_hit' % text)
        yield built(history='0 1 ld_hit from %s' % text)
        yield built(history='0 1 ld_hit %s 1 ld_hit' % text)
        yield built(history='0 1 ld_hit from 1 %s 1 ld_hit' % text)


def tree_limits():
    for count in (1, 7, 8, 9, 10):
        leaves = ' '.join(['leaf'] * count)
        yield built(tree='root(%s)' % leaves)
        yield built(tree='root(leaf mid(%s))' % leaves)
        yield built(tree='root(mid(%s) mid(%s))' % (leaves, leaves))
        yield built(tree='root(%s)' % ' '.join(['mid(leaf)'] * count))
    for count in (5, 6, 7, 8, 9, 70):
        yield built(tree='root(%sleaf%s)' % ('mid(' * count, ')' * count))
        yield built(tree='root(leaf %sleaf leaf%s leaf)' % ('mid(' * count, ')' * count), at='')
        yield built(tree='root(%sleaf%s %s)' % ('mid(' * count, ')' * count, ' '.join(['leaf'] * 9)))
    full = 'mid(%s)' % ' '.join(['leaf'] * 7)
    for last in (5, 6, 7, 8, 9):
        text = 'root(%s mid(%s))' % (' '.join([full] * 7), ' '.join(['leaf'] * last))
        yield built(tree=text, at='', history='')
        yield built(tree=text, at='at 2 line 0 Ld 0', history='0 2 ld_hit', lines='16', self='1000')
        yield built(tree=text, at='at 63 line 0 Ld 0 at 64 line 0 Ld 0', lines='0')
    yield built(tree='root(%s)' % ' '.join([full] * 9), at='')
    yield built(tree='root(%s)' % ' '.join(['leaf'] * 5000), at='')
    yield built(tree='root(%sleaf%s)' % ('mid(' * 3000, ')' * 3000), at='')
    yield built(tree='root(%sleaf%s' % ('mid(' * 3000, ')' * 3000), at='')


def work_limits():
    for lines in ('0', '1', '15', '16', '17', '64', '4294967295'):
        for own in ('0', '1', '999', '1000', '1001', '4294967295'):
            yield built(lines=lines, self=own)
            yield built(lines=lines, self=own, at='at 0 line 0 at 1 line 99')
            yield built(lines=lines, self=own, at='at 1 line 15 Ld 3', history='15 1 ld_hit')
            yield built(lines=lines, self=own, tree='root(%s)' % ' '.join(['mid(leaf leaf)'] * 4), at='')
    for at in ('at 0 line 0', 'at 1 line 0', 'at 2 line 0', 'at 1 line 1', 'at 1 line 0 LdR 0', 'at 1 line 0 Ld 0 LdR 0',
               'at 0 line 7 LdR 0', 'at 1 line 0 Ld 0 at 1 line 0 Ld 1 at 1 line 0', 'at 1 line 7 LdR 0',
               'at 1 line 0 Ld 1 Ld 2 at 9 line 9', 'at 1 line 0 S 0', 'at 1 line 0 Frob 0', 'at 1 line 0 st 0'):
        yield built(at=at)
        yield built(at=at, history='0 1 ld_hit 0 1 ld_hit 0 1 ld_hit')
    head = 'use msi_inclusive tree root(%s)' % ' '.join(['mid(leaf)'] * 6)
    for requests in (110, 111, 112, 113, 114):
        yield data('%s work lines 16 self 961 at 2 line 3 %s end history end' % (head, 'Ld 0 ' * requests))
    for count in (99999, 100000, 100001):
        yield data('%s work lines 1 self 0 at 2 line 0 %s end history end' % (head, 'Ld 0 ' * count))
        half = 'Ld 0 ' * (count // 2)
        yield data('%s work lines 1 self 0 at 2 line 0 %s at 4 line 0 %s at 4 line 0 St 5 end history end' % (head, half, half))
        yield data('%s work lines 16 self 1000 at 2 line 0 %s at 0 line 0 end history end' % (head, 'Ld 0 ' * count))
    yield data('%s work lines 1 self 0 at 2 line 0 %s GetS 0 end history end' % (head, 'Ld 0 ' * 100000))


def long_limits():
    """The longest histories and inputs; each of these takes the reference some time."""
    head = b'use msi_inclusive tree root(leaf) work lines 1 self 0 end history '
    for count in (1000000, 1000001):
        yield head + b'0 0 inv ' * count + b'end'
    yield head + b'0 1 inv from 1 ' * 1000000 + b'frob end'
    for count in (33554431, 33554432, 33554433):
        yield b' ' * count
        yield data(SMALL) + b'#' * (count - len(SMALL))
        yield data(SMALL) + b'\n' * (count - len(SMALL) - 1) + b'x'


def limits(rng, number):
    """Each limit met and passed; the number is of no account."""
    for maker in (name_limits, item_limits, set_limits, number_limits, tree_limits, work_limits):
        yield from maker()


def lengths(rng, number):
    """The longest histories and inputs; the number is of no account."""
    yield from long_limits()


def protocol_lengths(rng, number):
    """The longest inputs of the job `check`; the number is of no account."""
    protocol = SMALL[:SMALL.index('tree')]
    for count in (33554432, 33554433):
        yield b' ' * count
        yield data(protocol) + b'#' * (count - len(protocol))
