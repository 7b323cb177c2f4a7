"""Documents as texts: fixed ones, and tokens written with spaces and comments by chance."""
import reading

SMALL = '''protocol one
status I S
message Ld ext_req
message LdR ext_rsp
kind root dir init I end
kind mid dir init I end
kind leaf field st init S
rule ld_hit take me Ld need up free down free
when st in S send me LdR val end
end
end
tree root(leaf)
work lines 1 self 0 at 1 line 0 Ld 0 end
history 0 1 ld_hit end
'''

# Every word of the language stands in this one, which is not disciplined.
RICH = '''protocol all_parts # a comment
status I S M
message Ld ext_req message LdR ext_rsp
message Up up_req message UpR up_rsp
message Dn down_req message DnR down_rsp
kind root field st init M dir init I
 rule ask take me Up need up any down free when st in S M, me in I S, others all I
  set me := S, val := msg lock down child send kids in I S Dn val end
 rule done take kids UpR need up free down child when asked Up, kids any S M set targets := I, me := M, val := rs
  free down send me DnR kept end
 rule own take none need up any down free lock down self send kids in S Dn 0 end
end
kind mid field st init I field S init S dir init M
 rule ask take me Up need up free down free when st in I, S in S M, kids all M I lock up child send parent Up 0 end
 rule back take parent DnR need up child down free when others any I S M, asked Up set st := S, me := S
  free up lock down child send others in M Dn kept end
 rule back2 take parent DnR need up child down free free up send me DnR msg end
 rule fall take parent Dn need up any down parent lock up parent send parent UpR msg end
 rule join take kids UpR need up any down any free down send parent UpR rs end
end
kind leaf field st init I
 rule hit take me Ld need up free down free when st in S set val := msg send me LdR val end
 rule miss take me Ld need up free down free when st in I lock up child send parent Up 0 end
 rule got take parent DnR need up child down any set st := S, val := 00 free up send me LdR kept end
 rule inv take parent Dn need up any down any set st := I send parent UpR val end
 rule evict take none need up self down any free up end
end
end
tree root(mid(leaf leaf) leaf)
work lines 2 self 1 at 2 line 0 Ld 5 Ld 6 at 4 line 1 Ld 18446744073709551615 end
history 0 2 miss 0 1 ask from 2 1 4 miss 1 0 ask from 4 0 0 ask from 1 0 4 inv 0 4 inv end
'''

# A disciplined one, of which every sort of rule part stands in some rule.
ACCEPTED = '''protocol every_part # a comment
status I S M
message Ld ext_req message LdR ext_rsp
message Up up_req message UpR up_rsp
message Dn down_req message DnR down_rsp
kind root field st init M dir init I
 rule ask take me Up need up free down free when st in S M, me in I S, others any S, others all I S
  lock down child send others in S M Dn 0 end
 rule done take kids UpR need up any down child when asked Up, kids any S M set targets := I, me := S, val := rs
  free down send me DnR kept end
 rule give take me Up need up free down free when others all I set me := S send me DnR val end
end
kind mid field st init I field S init S dir init M
 rule miss take me Up need up free down free when st in I, S in S M, kids all M I lock up child send parent Up 0 end
 rule pass take parent DnR need up child down free when others any I S M, asked Up set st := S, me := S
  free up lock down child send others in M Dn kept end
 rule back take parent DnR need up child down free free up send me DnR msg end
 rule clear take none need up free down free lock down self send kids in S Dn 00 end
 rule cleared take kids UpR need up any down self set targets := I free down end
 rule down_on take parent Dn need up any down free lock down parent send kids in S M Dn msg end
 rule join take kids UpR need up any down parent set val := 0 free down send parent UpR rs end
end
kind leaf field st init I
 rule hit take me Ld need up free down free when st in S set val := msg send me LdR val end
 rule miss take me Ld need up free down free when st in I lock up child send parent Up 0 end
 rule got take parent DnR need up child down free set st := S, val := val free up send me LdR kept end
 rule inv take parent Dn need up any down free set st := I send parent UpR val end
 rule evict take none need up free down free when st in S I lock up self send parent Up 0 end
end
end
tree root(mid(leaf leaf) leaf)
work lines 2 self 1 at 2 line 0 Ld 5 Ld 6 at 4 line 1 Ld 18446744073709551615 end
history 1 4 miss 1 0 give from 4 1 4 got 0 2 miss 1 4 evict 0 1 miss from 2 end
'''

BY_NAME = '''use msi_inclusive
tree root(leaf leaf)
work lines 1 self 0 at 1 line 0 Ld 0 at 2 line 0 St 5 end
history 0 1 ld_miss 0 0 gets_hit from 1 0 1 ld_resp 0 1 evict 0 2 st_miss 0 0 getm_inv from 2 0 1 inv
 0 0 getm_done 0 2 st_resp 0 0 put_i from 1 0 1 evict_ack end
'''

GOOD = [SMALL, RICH, ACCEPTED, BY_NAME]

NUMBERS = ['0', '00', '1', '2', '7', '15', '16', '17', '64', '4294967295', '4294967296', '04294967295',
           '18446744073709551615', '18446744073709551616', '99999999999999999999999', '0' * 40 + '1']
SPACES = [' ', '\n', '\t', '\r', '\r\n', '  ', '\n\n', ' # a comment\n', '#\n', '#\xff end\r\n', '\t ']


def data(text):
    return text.encode('latin-1')


def words_of(text):
    """The texts of the tokens."""
    return [token.text for token in reading.tokens(text) if token.kind != 'end']


def needs_space(left, right):
    """Whether two tokens would run together."""
    joined = (left[-1:] + right[:1])
    return all(c.isalnum() or c == '_' for c in joined) or joined in (':=', '!=') or left[-1:] == '#'


def layout(rng, tokens, plain=False):
    """A text of these tokens, with spaces and comments by chance."""
    parts = []
    for k, token in enumerate(tokens):
        if k and (plain or needs_space(tokens[k - 1], token) or rng.random() < 0.7):
            parts.append(' ' if plain or rng.random() < 0.8 else rng.choice(SPACES))
        parts.append(token)
    if rng.random() < 0.7:
        parts.append(rng.choice(SPACES))
    return ''.join(parts)
