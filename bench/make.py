#!/usr/bin/env python3
"""Writes a document for the measurements of bench/run.sh.

    python3 bench/make.py one-step N    N requests and N firings of rules that answer at once, over eight leaves
    python3 bench/make.py rounds N      N firings of inclusive MSI: loads and evictions over 64 objects and 16 lines
    python3 bench/make.py stores N      N firings of inclusive MSI: eight leaves below eight mids store to one line
    python3 bench/make.py entries N     N entries of work with one request each
    python3 bench/make.py protocol      a protocol of the greatest size, with the most to try for its discipline
    python3 bench/make.py comments N    N bytes of comments in front of a small document
    python3 bench/make.py signs N       N bytes, each a token: no document, and what is held of tokens is the most
    python3 bench/make.py alone N       N firings of six bytes, each a transaction of its own

and for the jobs `walk` and `make`, without a history:

    python3 bench/make.py load          noninclusive MESI, eight leaves below two mids, 4 lines, no requests of its own
    python3 bench/make.py misses N      N requests on that tree: stores and loads in turn, at each leaf on each line; the
                                        leaves answer their parent first, so that mostly another leaf has the line
    python3 bench/make.py idle N        inclusive MSI, 64 objects and 16 lines, N requests of one leaf on one line
    python3 bench/make.py echoes N      N stores on 64 objects, each of which asks all leaves of the other mids, with rule names
                                        of 32 letters: the answer without a count has some 5,000 bytes for each

and for the jobs `emit` and `play`:

    python3 bench/make.py tree NAME     the shipped protocol of this name on 64 objects
    python3 bench/make.py widest        rules with conditions on all other children, on 64 objects: 24 MB of modules
    python3 bench/make.py hits N        the modules of inclusive MSI on 21 objects, and a feed of N requests of its leaves,
                                        stores and loads in turn: most of them hit
    python3 bench/make.py trips N       the same, of a protocol without hits: each request goes up and comes back
    python3 bench/make.py again N       N bytes of module rules: those of that system, again and again under other numbers
"""
import itertools
import os
import re
import sys

sys.path.insert(0, os.path.join(os.path.dirname(os.path.dirname(os.path.abspath(__file__))), 'compare'))
sys.dont_write_bytecode = True

import emitting
from reading import Reader
from shipped import SHIPPED

ONE_STEP = """protocol cells
status Empty Full
message Ld ext_req
message St ext_req
message LdR ext_rsp
message StR ext_rsp
kind root dir init Empty end
kind mid dir init Empty end
kind leaf
field st init Full
rule store take me St need up free down free set st := Full, val := msg send me StR 0 end
rule load take me Ld need up free down free when st in Full send me LdR val end
end
end
"""

LEAVES = 'tree root(%s)\n' % ' '.join(['leaf'] * 8)


def one_step(count):
    """Loads and stores that each leaf answers at once."""
    requests = [[] for _ in range(8)]
    firings = []
    for k in range(count):
        leaf = (k * 5 + k // 7) % 8
        if k % 3 == 0:
            requests[leaf].append('St %d' % (k * 977))
            firings.append('0 %d store' % (leaf + 1))
        else:
            requests[leaf].append('Ld 0')
            firings.append('0 %d load' % (leaf + 1))
    yield ONE_STEP + LEAVES + 'work lines 1 self 0\n'
    for leaf, its in enumerate(requests):
        if its:
            yield 'at %d line 0 %s\n' % (leaf + 1, ' '.join(its))
    yield 'end\nhistory\n%s\nend\n' % '\n'.join(firings)


def rounds(count):
    """Each round is a load and an eviction at a leaf; where the requests have run out, an eviction alone."""
    most_loads = 100000
    yield 'use msi_inclusive\ntree root(%s)\n' % ' '.join(['mid(%s)' % ' '.join(['leaf'] * 8)] * 7)
    places = [(line, 1 + 9 * mid, 2 + 9 * mid + leaf) for line in range(16) for leaf in range(8) for mid in range(7)]
    history = []
    loads = [0] * len(places)
    made = 0
    filled = set()
    while len(history) + 8 <= count and made < most_loads:
        for k, (line, mid, leaf) in enumerate(places):
            if len(history) + 8 > count or made == most_loads:
                break
            loads[k] += 1
            made += 1
            history.append('%d %d ld_miss' % (line, leaf))
            if (line, mid) in filled:
                history.append('%d %d gets_hit from %d' % (line, mid, leaf))
            else:
                filled.add((line, mid))
                history.append('%d %d gets_up from %d' % (line, mid, leaf))
                history.append('%d 0 gets_hit from %d' % (line, mid))
                history.append('%d %d gets_resp' % (line, mid))
            history.append('%d %d ld_resp' % (line, leaf))
            history.append('%d %d evict' % (line, leaf))
            history.append('%d %d put_s from %d' % (line, mid, leaf))
            history.append('%d %d evict_ack' % (line, leaf))
    k = 0
    while len(history) + 3 <= count:
        line, mid, leaf = places[k % len(places)]
        history.append('%d %d evict' % (line, leaf))
        history.append('%d %d put_i from %d' % (line, mid, leaf))
        history.append('%d %d evict_ack' % (line, leaf))
        k += 1
    yield 'work lines 16 self 0\n'
    for (line, _, leaf), its in zip(places, loads):
        if its:
            yield 'at %d line %d%s\n' % (leaf, line, ' Ld 0' * its)
    yield 'end\nhistory\n%s\nend\n' % '\n'.join(history)


def next_store(k):
    """Which leaf's store comes next: mostly the first six in turn; the last two wait for very long."""
    if k % 1000 == 999:
        return 7
    return 6 if k % 100 == 99 else (k - k // 100 - k // 1000) % 6


def stores(count):
    """All eight leaves wait for a store. One is granted at a time: the copy of the last one is taken back, which has
    begun to evict it every second time, and that leaf asks for its next store, which waits for the others."""
    mids, leaves = range(1, 17, 2), range(2, 18, 2)
    history, asked = [], [0] * 8

    def ask(k):
        asked[k] += 1
        history.extend(['0 %d st_miss' % leaves[k], '0 %d getm_up from %d' % (mids[k], leaves[k])])

    for k in range(8):
        ask(k)
    owner, made = None, 0
    while len(history) < count:
        k = next_store(made)
        evicts = made % 2 == 1
        made += 1
        if owner is None:
            history.append('0 0 getm_hit from %d' % mids[k])
        else:
            mid, leaf = mids[owner], leaves[owner]
            history.extend(['0 %d evict' % leaf] * evicts)
            history.extend(['0 0 getm_inv from %d' % mids[k], '0 %d inv_down' % mid, '0 %d inv' % leaf,
                            '0 %d inv_done' % mid, '0 0 getm_done'])
        history.extend(['0 %d getm_resp' % mids[k], '0 %d st_resp' % leaves[k]])
        if owner is not None:
            history.extend(['0 %d put_i from %d' % (mid, leaf), '0 %d evict_ack' % leaf] * evicts)
            ask(owner)
        owner = k
    yield 'use msi_inclusive\ntree root(%s)\nwork lines 1 self 0\n' % ' '.join(['mid(leaf)'] * 8)
    for k in range(8):
        yield 'at %d line 0%s\n' % (leaves[k], ''.join(' St %d' % (8 * i + k) for i in range(asked[k])))
    yield 'end\nhistory\n%s\nend\n' % '\n'.join(history[:count])


def entries(count):
    """Entries of one request each."""
    yield 'use mesi_inclusive\n' + LEAVES + 'work lines 16 self 0\n'
    for k in range(count):
        yield 'at %d line %d St %d\n' % (k % 8 + 1, k // 8 % 16, k)
    yield 'end\nhistory end\n'


ATOMS = ['%s A B C D' % atom for atom in ['f0 in', 'f1 in', 'f2 in', 'kids all', 'kids any', 'me in', 'others all']]
SETS = 'set f0 := A, f1 := B, f2 := C'


def rule(name, atoms, take, needs, rest):
    """A rule with sixteen conditions, which hold in each state."""
    guard = ', '.join(ATOMS[k % atoms] for k in range(16))
    return 'rule %s take %s need up %s down %s\n  when %s\n  %s end\n' % (name, take, *needs.split(), guard, rest)


def root_rules():
    for k in range(64):
        yield rule('hit%d' % k, 7, 'me UpReq', 'free free', SETS + ', val := msg, me := D send me DownRsp val')


def mid_rules():
    """For each request up all pairs of a rule that asks the children and one that answers the parent then are tried."""
    for k in range(21):
        yield rule('up%d' % k, 5, 'me UpReq', 'free free', 'lock up child send parent UpReq msg')
        yield rule('ask%d' % k, 5, 'parent DownReq', 'any free', 'lock down parent send kids in A B C D DownReq 0')
    for k in range(22):
        yield rule('answer%d' % k, 5, 'kids UpRsp', 'any parent',
                   SETS + ', val := rs, targets := D free down send parent UpRsp rs')


def leaf_rules():
    for k in range(32):
        yield rule('up%d' % k, 3, 'me ExtReq', 'free free', 'lock up child send parent UpReq msg')
        yield rule('answer%d' % k, 3, 'parent DownReq', 'any free', SETS + ', val := 0 send parent UpRsp val')


def greatest_protocol():
    """64 messages, three kinds of 64 rules with sixteen conditions each; it is accepted."""
    yield 'protocol greatest\nstatus A B C D\n'
    classes = [('ExtReq', 'ext_req'), ('ExtRsp', 'ext_rsp'), ('UpReq', 'up_req'), ('UpRsp', 'up_rsp'),
               ('DownReq', 'down_req'), ('DownRsp', 'down_rsp')]
    for k in range(64):
        name, cls = classes[k % 6]
        yield 'message %s%s %s\n' % (name, k // 6 or '', cls)
    for kind, rules in [('root', root_rules), ('mid', mid_rules), ('leaf', leaf_rules)]:
        yield 'kind %s\nfield f0 init A\nfield f1 init B\nfield f2 init C\n' % kind
        yield 'dir init D\n' if kind != 'leaf' else ''
        yield from rules()
        yield 'end\n'
    yield 'end\n' + LEAVES + 'work lines 1 self 0 end\nhistory end\n'


def comments(size):
    """Comment lines of 64 bytes."""
    line = '# ' + 'c' * 61 + '\n'
    yield line * (size // len(line))
    yield 'use msi_inclusive\ntree root(leaf)\nwork lines 1 self 0 end\nhistory end\n'


def signs(size):
    """Opening parentheses, the first of which is the fault."""
    yield '(' * size


ALONE = """protocol alone
status I S
kind root dir init S
rule r take none need up free down free end
end
kind mid dir init I end
kind leaf end
end
"""


def alone(count):
    """Firings of the root, each a transaction of its own."""
    yield ALONE + LEAVES + 'work lines 1 self 0 end\nhistory\n' + '0 0 r\n' * count + 'end\n'


LOAD = 'tree root(mid(leaf leaf leaf leaf) mid(leaf leaf leaf leaf))\nwork lines 4 self 2\n'


def load():
    """The tree of the realistic load, whose requests are to be generated."""
    yield 'use mesi_noninclusive\n' + LOAD + 'end\n'


def yielding():
    """Noninclusive MESI of which leaves answer their parent before their processor, since a walk takes the first rule."""
    protocol = SHIPPED['mesi_noninclusive']
    before, leaf = protocol.split('kind leaf\nfield st init I\n')
    rules = leaf.split('\n')
    first = [rule for rule in rules if ' take parent ' in rule]
    rest = [rule for rule in rules if rule not in first]
    return before + 'kind leaf\nfield st init I\n' + '\n'.join(first + rest)


def misses(count):
    """Each line is written by all leaves in turn, so that mostly another leaf has it."""
    places = [(leaf, line) for line in range(4) for leaf in (2, 3, 4, 5, 7, 8, 9, 10)]
    yield yielding() + LOAD
    for k, (leaf, line) in enumerate(places):
        own = range(k, count, len(places))
        yield 'at %d line %d%s\n' % (leaf, line, ''.join(' Ld 0' if j % 2 else ' St %d' % i for j, i in enumerate(own)))
    yield 'end\n'


def idle(count):
    """All objects but one leaf, and what lies above it, have nothing to do."""
    yield 'use msi_inclusive\ntree root(%s)\n' % ' '.join(['mid(%s)' % ' '.join(['leaf'] * 8)] * 7)
    yield 'work lines 16 self 0\nat 2 line 0%s\nend\n' % ''.join(' St 1' if k % 2 else ' Ld 0' for k in range(count))


MOST_OBJECTS = 'tree root(%s)\n' % ' '.join(['mid(%s)' % ' '.join(['leaf'] * 8)] * 7)
MIDDLE_SIZE = 'tree root(%s)\n' % ' '.join(['mid(leaf leaf leaf leaf)'] * 4)


ECHO = """protocol echo
status I S
message St ext_req
message StR ext_rsp
message Get up_req
message Rs down_rsp
message Inv down_req
message InvR up_rsp
kind root
dir init I
rule get take me Get need up free down free when others any I lock down child send others in I Inv 0 end
rule done take kids InvR need up any down child when asked Get free down send me Rs 0 end
end
kind mid
dir init I
rule up take me Get need up free down free lock up child send parent Get 0 end
rule resp take parent Rs need up child down free free up send me Rs msg end
rule inv take parent Inv need up any down free when kids any I lock down parent send kids in I Inv 0 end
rule inv_done take kids InvR need up any down parent when asked Inv free down send parent InvR 0 end
end
kind leaf
field st init I
rule miss take me St need up free down free lock up child send parent Get 0 end
rule resp take parent Rs need up child down free free up send me StR msg end
rule inv take parent Inv need up any down free send parent InvR 0 end
end
end
"""


def echoes(count):
    """Stores of all leaves in turn; names of the most letters, so that what a walk or a run prints is the longest."""
    yield re.sub(r'^rule (\w+)', lambda rule: 'rule ' + rule[1].ljust(32, '_'), ECHO, flags=re.M)
    yield MOST_OBJECTS + 'work lines 1 self 0\n'
    leaves = [mid + k for mid in range(1, 64, 9) for k in range(1, 9)]
    for k, leaf in enumerate(leaves):
        yield 'at %d line 0%s\n' % (leaf, ' St 1' * len(range(k, count, len(leaves))))
    yield 'end\n'


def tree(name):
    """A shipped protocol on the most objects."""
    yield 'use %s\n' % name + MOST_OBJECTS


WIDE_RULE = ('rule r%%d take kids UpRsp need up any down child when %s set val := rs, targets := A, me := B free down '
             'send me DownRsp rs end\n') % ', '.join(['others any A B C D'] * 16)


def widest():
    """Roots and mids with as many conditions as there can be on all children but one that isn't known beforehand."""
    yield 'protocol widest\nstatus A B C D\nmessage UpRsp up_rsp\nmessage DownRsp down_rsp\n'
    for kind in ('root', 'mid'):
        yield 'kind %s dir init A\n' % kind + ''.join(WIDE_RULE % k for k in range(64)) + 'end\n'
    yield 'kind leaf end\nend\n' + MOST_OBJECTS


def modules_of(protocol_text):
    """The modules of a protocol on 21 objects."""
    return emitting.modules_of(*Reader(protocol_text + MIDDLE_SIZE).protocol_and_tree())


def with_requests(modules, count):
    """The text of modules, and a feed of stores and loads in turn at each leaf."""
    yield '\n'.join(emitting.modules_lines(modules)) + '\nfeed\n'
    lists = [queue for queue in modules.queues if queue.startswith('xr_')]
    for k in range(count):
        place = k // len(lists)
        yield '%s %s\n' % (lists[k % len(lists)], '0 0' if place % 2 else '1 %d' % k)
    yield 'end\n'


def hits(count):
    """Requests that a leaf mostly serves by itself."""
    yield from with_requests(modules_of(SHIPPED['msi_inclusive']), count)


def trips(count):
    """Requests that each go up: leaves have no hits, and ask for what they have."""
    lines = [line for line in SHIPPED['msi_inclusive'].split('\n') if not line.startswith(('rule ld_hit', 'rule st_hit'))]
    text = '\n'.join(lines)
    for name, statuses in (('ld_miss', 'I'), ('st_miss', 'I S')):
        start = text.index('rule %s ' % name)
        text = text[:start] + text[start:].replace(' when st in %s' % statuses, '', 1)
    yield from with_requests(modules_of(text), count)


def again(size):
    """The rules of a system, repeated under other numbers of objects up to so many bytes."""
    modules = modules_of(SHIPPED['msi_inclusive'])
    lines = emitting.modules_lines(modules._replace(rules=[]))
    yield '\n'.join(lines[:-1]) + '\n'
    made, objects = 0, 1 + max(rule.object for rule in modules.rules)
    for more in itertools.count(0, objects):
        text = ''.join(emitting.rule_text(rule._replace(object=rule.object + more)) + '\n' for rule in modules.rules)
        made += len(text)
        if made > size:
            break
        yield text
    yield 'end\nfeed end\n'


def main(words):
    makers = {'one-step': one_step, 'rounds': rounds, 'stores': stores, 'entries': entries, 'comments': comments,
              'signs': signs, 'alone': alone, 'misses': misses, 'idle': idle, 'echoes': echoes, 'hits': hits, 'trips': trips, 'again': again}
    if words == ['protocol']:
        pieces = greatest_protocol()
    elif words == ['load']:
        pieces = load()
    elif words == ['widest']:
        pieces = widest()
    elif len(words) == 2 and words[0] == 'tree' and words[1] in SHIPPED:
        pieces = tree(words[1])
    elif len(words) == 2 and words[0] in makers and words[1].isdigit():
        pieces = makers[words[0]](int(words[1]))
    else:
        sys.exit(__doc__)
    for piece in pieces:
        sys.stdout.write(piece)


main(sys.argv[1:])
