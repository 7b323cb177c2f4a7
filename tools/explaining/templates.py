"""The templates of rules in words."""
from discipline import TEMPLATES

WORDS = {
    'imm_self': 'changes the object, and takes and sends nothing',
    'imm_down': "answers a child's request at once",
    'imm_up': "answers the parent's request at once",
    'rq_up': "passes a child's request on to the parent",
    'rq_up_self': 'sends the parent a request of its own',
    'rq_up_down': 'asks the other children for a child that asked',
    'rq_down_self': 'asks the children for itself',
    'rq_down_down': "passes the parent's request on to the children",
    'rs_down': "takes the parent's response and answers the child that asked",
    'rs_down_self': "takes the parent's response to a request of its own",
    'rs_down_rq_down': "takes the parent's response, and must ask the other children before it answers",
    'rs_up_down': "takes the children's responses and answers the child that asked",
    'rs_up_up': "takes the children's responses and answers the parent",
    'rs_up_self': "takes the children's responses to a request of its own",
}


def described(name, kind):
    """What a template's rules do, for a kind: a leaf's child is its processor."""
    words = WORDS[name]
    if kind == 'leaf':
        words = words.replace("a child's request", "the processor's request").replace('the child that', 'the processor that')
    return words


def needs(name):
    return 'need up %s down %s' % (TEMPLATES[name].up, TEMPLATES[name].down)
