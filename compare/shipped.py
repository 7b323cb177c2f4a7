"""The four shipped protocols, written out from short tables.

A table has one line for each rule: name, template, taken message or `-`, guard in brackets,
sets in braces, and what it sends. The template gives the take, both needs and the locks.
"""
import re

# For each template: the take, the need on the uplock, the need on the downlock, the lock
# words, and the word before what is sent.
FORMS = {
    'imm_self': ('none', 'free', 'free', '', ''),
    'imm_down': ('me', 'free', 'free', '', 'me'),
    'imm_up': ('parent', 'any', 'free', '', 'parent'),
    'rq_up': ('me', 'free', 'free', 'lock up child', 'parent'),
    'rq_up_self': ('none', 'free', 'free', 'lock up self', 'parent'),
    'rq_up_down': ('me', 'free', 'free', 'lock down child', ''),
    'rq_down_self': ('none', 'free', 'free', 'lock down self', ''),
    'rq_down_down': ('parent', 'any', 'free', 'lock down parent', ''),
    'rs_down': ('parent', 'child', 'free', 'free up', 'me'),
    'rs_down_self': ('parent', 'self', 'free', 'free up', ''),
    'rs_down_rq_down': ('parent', 'child', 'free', 'free up lock down child', ''),
    'rs_up_down': ('kids', 'any', 'child', 'free down', 'me'),
    'rs_up_up': ('kids', 'any', 'parent', 'free down', 'parent'),
    'rs_up_self': ('kids', 'any', 'self', 'free down', ''),
}

MESSAGES = [
    ('Ld', 'ext_req'), ('St', 'ext_req'), ('LdR', 'ext_rsp'), ('StR', 'ext_rsp'),
    ('GetS', 'up_req'), ('GetM', 'up_req'), ('Put', 'up_req'),
    ('RsS', 'down_rsp'), ('RsM', 'down_rsp'), ('RsPut', 'down_rsp'),
    ('Inv', 'down_req'), ('Down', 'down_req'), ('InvR', 'up_rsp'), ('DownR', 'up_rsp'),
]

MSI_ROOT = '''
gets_hit   imm_down   GetS  [st in S M, others all I S] {me := S} RsS val
gets_down  rq_up_down GetS  [st in M, others any M] {} others in M Down 0
gets_done  rs_up_down DownR [asked GetS] {targets := S, me := S, val := rs} RsS rs
getm_hit   imm_down   GetM  [st in M, others all I] {me := M} RsM val
getm_inv   rq_up_down GetM  [st in M, others any S M] {} others in S M Inv 0
getm_done  rs_up_down InvR  [asked GetM] {targets := I, me := M, val := rs} RsM rs
put_m      imm_down   Put   [me in M] {val := msg, me := I} RsPut 0
put_s      imm_down   Put   [me in S] {me := I} RsPut 0
put_i      imm_down   Put   [me in I] {} RsPut 0
'''

MSI_MID = MSI_ROOT + '''
gets_up       rq_up           GetS  [st in I] {} GetS 0
gets_resp     rs_down         RsS   [] {st := S, val := msg, me := S} RsS msg
getm_up       rq_up           GetM  [st in I S] {} GetM 0
getm_resp     rs_down         RsM   [others all I] {st := M, val := msg, me := M} RsM msg
getm_resp_inv rs_down_rq_down RsM   [others any S M] {st := M, val := msg} others in S M Inv 0
inv           imm_up          Inv   [st in S M, kids all I] {st := I} InvR val
inv_down      rq_down_down    Inv   [st in S M, kids any S M] {} kids in S M Inv 0
inv_done      rs_up_up        InvR  [asked Inv] {targets := I, st := I} InvR rs
downgrade     imm_up          Down  [st in M, kids all I S] {st := S} DownR val
down_down     rq_down_down    Down  [st in M, kids any M] {} kids in M Down 0
down_done     rs_up_up        DownR [asked Down] {targets := S, st := S, val := rs} DownR rs
evict         rq_up_self      -     [kids all I] {} Put val
evict_ack     rs_down_self    RsPut [] {st := I} -
recall        rq_down_self    -     [kids any S M] {} kids in S M Inv 0
recall_done   rs_up_self      InvR  [] {targets := I, val := rs} -
'''

MSI_LEAF = '''
ld_hit    imm_down     Ld    [st in S M] {} LdR val
st_hit    imm_down     St    [st in M] {val := msg} StR 0
ld_miss   rq_up        Ld    [st in I] {} GetS 0
st_miss   rq_up        St    [st in I S] {} GetM 0
ld_resp   rs_down      RsS   [] {st := S, val := msg} LdR msg
st_resp   rs_down      RsM   [] {st := M, val := kept} StR 0
evict     rq_up_self   -     [] {} Put val
evict_ack rs_down_self RsPut [] {st := I} -
inv       imm_up       Inv   [st in S M] {st := I} InvR val
downgrade imm_up       Down  [st in M] {st := S} DownR val
'''

MESI_GETS = '''
gets_hit   imm_down GetS [st in S] {me := S} RsS val
gets_share imm_down GetS [st in M, others any S, others all I S] {me := S} RsS val
gets_excl  imm_down GetS [st in M, others all I] {me := M} RsE val
'''

MESI_MID_RESPONSE = 'gets_resp_e rs_down RsE [] {st := M, val := msg, me := M} RsE msg'

MESI_LEAF = {
    'ld_hit': 'ld_hit    imm_down Ld   [st in S E M] {} LdR val',
    'st_hit': 'st_hit    imm_down St   [st in E M] {st := M, val := msg} StR 0',
    'inv': 'inv       imm_up   Inv  [st in S E M] {st := I} InvR val',
    'downgrade': 'downgrade imm_up   Down [st in E M] {st := S} DownR val',
}

MESI_LEAF_RESPONSE = 'ld_resp_e rs_down  RsE  [] {st := E, val := msg} LdR msg'

FETCH = 'fetch imm_up Fetch [st in S] {} FetchR val'

APART_MID = '''
gets_hit      imm_down        GetS   [st in S M, own in S, others all I S] {me := S} RsS val
gets_down     rq_up_down      GetS   [st in M, others any M] {} others in M Down 0
gets_done     rs_up_down      DownR  [asked GetS] {targets := S, me := S, val := rs, own := S} RsS rs
gets_fetch    rq_up_down      GetS   [st in S M, own in I, others any S, others all I S] {} others in S Fetch 0
gets_fetched  rs_up_down      FetchR [asked GetS] {me := S, val := rs, own := S} RsS rs
getm_hit      imm_down        GetM   [st in M, others all I] {me := M} RsM val
getm_inv      rq_up_down      GetM   [st in M, others any S M] {} others in S M Inv 0
getm_done     rs_up_down      InvR   [asked GetM] {targets := I, me := M, val := rs} RsM rs
put           imm_down        Put    [me in S M] {val := msg, own := S, me := I} RsPut 0
put_i         imm_down        Put    [me in I] {} RsPut 0
gets_up       rq_up           GetS   [st in I] {} GetS 0
gets_resp     rs_down         RsS    [] {st := S, val := msg, own := S, me := S} RsS msg
getm_up       rq_up           GetM   [st in I S] {} GetM 0
getm_resp     rs_down         RsM    [others all I] {st := M, val := msg, me := M} RsM msg
getm_resp_inv rs_down_rq_down RsM    [others any S M] {st := M, val := msg} others in S M Inv 0
inv           imm_up          Inv    [st in S M, kids all I] {st := I, own := I} InvR val
inv_down      rq_down_down    Inv    [st in S M, kids any S M] {} kids in S M Inv 0
inv_done      rs_up_up        InvR   [asked Inv] {targets := I, st := I, own := I} InvR rs
downgrade     imm_up          Down   [st in M, own in S, kids all I S] {st := S} DownR val
down_down     rq_down_down    Down   [st in M, kids any M] {} kids in M Down 0
down_done     rs_up_up        DownR  [asked Down] {targets := S, st := S, val := rs, own := S} DownR rs
down_fetch    rq_down_down    Down   [st in M, own in I, kids any S, kids all I S] {} kids in S Fetch 0
down_fetched  rs_up_up        FetchR [asked Down] {st := S, val := rs, own := S} DownR rs
fetch         imm_up          Fetch  [st in S, own in S] {} FetchR val
fetch_down    rq_down_down    Fetch  [st in S, own in I, kids any S] {} kids in S Fetch 0
fetch_back    rs_up_up        FetchR [asked Fetch] {val := rs, own := S} FetchR rs
evict         rq_up_self      -      [kids all I] {} Put val
evict_ack     rs_down_self    RsPut  [] {st := I, own := I} -
recall        rq_down_self    -      [kids any S M] {} kids in S M Inv 0
recall_done   rs_up_self      InvR   [] {targets := I, val := rs, own := S} -
drop          imm_self        -      [own in S, kids any S M] {own := I} -
'''

MESI_APART_GETS = '''
gets_hit    imm_down GetS [st in S, own in S] {me := S} RsS val
gets_share  imm_down GetS [st in M, own in S, others any S, others all I S] {me := S} RsS val
gets_excl   imm_down GetS [st in M, own in S, others all I] {me := M} RsE val
'''

MESI_APART_RESPONSE = 'gets_resp_e rs_down  RsE  [] {st := M, val := msg, own := S, me := M} RsE msg'


def table(text):
    """The lines of a table by the names of their rules."""
    lines = [line for line in text.split('\n') if line.strip()]
    return {line.split()[0]: line for line in lines}


def replaced(rules, name, text):
    """The rules with those of a text in the place of the rule of that name."""
    result = {}
    for key, line in rules.items():
        result.update(table(text) if key == name else {key: line})
    return result


def followed(rules, name, text):
    """The rules with those of a text after the rule of that name."""
    return replaced(rules, name, rules[name] + '\n' + text)


def rule_text(line):
    """The canonical text of one line of a table."""
    pattern = r'(\w+)\s+(\w+)\s+(\S+)\s+\[(.*?)\] \{(.*?)\} (.*)'
    name, form, taken, guard, sets, sent = re.fullmatch(pattern, line.strip()).groups()
    take, up, down, locks, to = FORMS[form]
    parts = ['rule', name, 'take', take]
    if taken != '-':
        parts.append(taken)
    parts += ['need up', up, 'down', down]
    if guard:
        parts += ['when', guard]
    if sets:
        parts += ['set', sets]
    if locks:
        parts.append(locks)
    if sent != '-':
        parts.append('send ' + (to + ' ' if to else '') + sent)
    return ' '.join(parts + ['end'])


def protocol_text(name, statuses, messages, root, mid, leaf, own):
    """The canonical text of a protocol of these tables; `own` says that mids have that field."""
    lines = ['protocol ' + name, 'status ' + statuses]
    lines += ['message %s %s' % pair for pair in messages]
    lines += ['kind root', 'field st init M', 'dir init I'] + [rule_text(r) for r in root.values()] + ['end']
    lines += ['kind mid', 'field st init I'] + (['field own init I'] if own else []) + ['dir init I']
    lines += [rule_text(r) for r in mid.values()] + ['end']
    lines += ['kind leaf', 'field st init I'] + [rule_text(r) for r in leaf.values()] + ['end', 'end']
    return '\n'.join(lines) + '\n'


def build():
    """The four texts by name."""
    root, mid, leaf = table(MSI_ROOT), table(MSI_MID), table(MSI_LEAF)
    mesi_root = replaced(root, 'gets_hit', MESI_GETS)
    mesi_mid = followed(replaced(mid, 'gets_hit', MESI_GETS), 'gets_resp', MESI_MID_RESPONSE)
    mesi_leaf = {name: MESI_LEAF.get(name, line) for name, line in leaf.items()}
    mesi_leaf = followed(mesi_leaf, 'ld_resp', MESI_LEAF_RESPONSE)
    apart = table(APART_MID)
    mesi_apart = followed(replaced(apart, 'gets_hit', MESI_APART_GETS), 'gets_resp', MESI_APART_RESPONSE)
    exclusive = [('RsE', 'down_rsp')]
    fetch = [('Fetch', 'down_req'), ('FetchR', 'up_rsp')]
    return {
        'msi_inclusive': protocol_text('msi_inclusive', 'I S M', MESSAGES, root, mid, leaf, False),
        'mesi_inclusive': protocol_text('mesi_inclusive', 'I S E M', MESSAGES + exclusive,
                                        mesi_root, mesi_mid, mesi_leaf, False),
        'msi_noninclusive': protocol_text('msi_noninclusive', 'I S M', MESSAGES + fetch,
                                          root, apart, dict(leaf, fetch=FETCH), True),
        'mesi_noninclusive': protocol_text('mesi_noninclusive', 'I S E M', MESSAGES + exclusive + fetch,
                                           mesi_root, mesi_apart, dict(mesi_leaf, fetch=FETCH), True),
    }


SHIPPED = build()
