"""Modules as one clocked Verilog design: registers, bounded queues, and one rule a cycle by fixed priority."""
from collections import namedtuple

from playing import Deq, Enq, Number, Put, Register

# A queue's name, how many items it holds at most, and its items at the start.
Queue = namedtuple('Queue', 'name depth items')

QUEUE = '''  // {name}, at most {depth} items: the place of the first, and how many there are
  reg [31:0] q_{name}_id [0:{last}];
  reg [63:0] q_{name}_value [0:{last}];
  reg [{top}:0] q_{name}_first, q_{name}_count;
  wire q_{name}_there = q_{name}_count != 0;
  wire [31:0] q_{name}_head = q_{name}_id[q_{name}_first];
  wire [63:0] q_{name}_front = q_{name}_there ? q_{name}_value[q_{name}_first] : 64'd0;
  reg [{top}:0] q_{name}_end, q_{name}_more;'''

HEAD = '''// The modules {name}: at each cycle the first rule in their order that can fire, but for spontaneous ones.
// A rule waits where a queue that it appends to has no room.
module m_{name} (
  input wire clock,
  input wire reset,
  output wire stuck,
  output reg [63:0] fired
);'''


def queues_of(modules, items, depth):
    """The queues, each with room for its items at the start at least."""
    lists = {name: [item[1:] for item in items if item[0] == name] for name in modules.queues}
    return [Queue(name, max(depth, len(its)), its) for name, its in lists.items()]


# Conditions and values

def atom_text(atom):
    if atom.test == 'head':
        return "(q_%s_there && q_%s_head == 32'd%d)" % (atom.name, atom.name, atom.number)
    return "r_%s %s 64'd%d" % (atom.name, '==' if atom.test == '=' else '!=', atom.number)


def clause_text(clause):
    return '(%s)' % (' || '.join(map(atom_text, clause)) or "1'b0")


def condition_text(condition):
    return ' && '.join(map(atom_text, condition))


def one_if(text):
    """The number 1 where the text holds, or where it is empty, and else 0."""
    return '((%s) ? 1 : 0)' % text if text else '1'


def value_text(value):
    if isinstance(value, Number):
        return "64'd%d" % value.number
    return 'r_' + value.name if isinstance(value, Register) else 'q_%s_front' % value.queue


# Rules

class Rule:
    """What a rule's actions do to each queue and each register."""

    def __init__(self, rule, depths):
        self.rule, self.depths = rule, depths
        self.taken, self.sent = {}, {}
        for condition, act in rule.actions:
            if isinstance(act, Deq):
                self.taken.setdefault(act.queue, []).append(condition)
            elif isinstance(act, Enq):
                self.sent.setdefault(act.queue, []).append((condition, act))

    def takes(self, queue):
        """The text of whether the rule takes the head of a queue from which it may."""
        conditions = list(dict.fromkeys(map(condition_text, self.taken[queue])))
        there = 'q_%s_there' % queue
        return there if '' in conditions else '%s && (%s)' % (there, ' || '.join('(%s)' % text for text in conditions))

    def less_taken(self, queue):
        """The text that takes off the head of a queue where the rule takes it."""
        return ' - ' + one_if(self.takes(queue)) if queue in self.taken else ''

    def room(self, queue):
        """The text of whether there is room in a queue for what the rule appends, once the heads are taken."""
        conditions = [condition_text(condition) for condition, _ in self.sent[queue]]
        appended = ' + '.join(map(one_if, conditions))
        nothing = '' if '' in conditions else ' || !(%s)' % ' || '.join('(%s)' % text for text in dict.fromkeys(conditions))
        return '(q_%s_count%s + %s <= %d%s)' % (queue, self.less_taken(queue), appended, self.depths[queue], nothing)

    def can(self):
        tests = [clause_text(clause) for clause in self.rule.clauses] + [self.room(queue) for queue in self.sent]
        return ' && '.join(tests) or "1'b1"

    def lines(self):
        """What the rule does, as statements."""
        for condition, act in self.rule.actions:
            if isinstance(act, Put):
                when = 'if (%s) ' % condition_text(condition) if condition else ''
                yield '%sr_%s <= %s;' % (when, act.register, value_text(act.value))
        for queue in dict.fromkeys(list(self.taken) + list(self.sent)):
            yield from self.queue_lines(queue)

    def queue_lines(self, queue):
        names = {'q': 'q_' + queue, 'depth': self.depths[queue], 'last': self.depths[queue] - 1}
        if queue in self.taken:
            names['takes'] = self.takes(queue)
            yield 'if ({takes}) {q}_first <= {q}_first == {last} ? 0 : {q}_first + 1;'.format(**names)
        if queue not in self.sent:
            yield '{q}_count <= {q}_count{less};'.format(less=self.less_taken(queue), **names)
            return
        yield '{q}_end = {q}_first + {q}_count;'.format(**names)
        yield 'if ({q}_end >= {depth}) {q}_end = {q}_end - {depth};'.format(**names)
        yield '{q}_more = 0;'.format(**names)
        for condition, act in self.sent[queue]:
            yield 'if (%s) begin' % condition_text(condition) if condition else 'begin'
            yield "  {q}_id[{q}_end] <= 32'd{id}; {q}_value[{q}_end] <= {value};".format(
                id=act.id, value=value_text(act.value), **names)
            yield '  {q}_end = {q}_end == {last} ? 0 : {q}_end + 1; {q}_more = {q}_more + 1;'.format(**names)
            yield 'end'
        yield '{q}_count <= {q}_count{less} + {q}_more;'.format(less=self.less_taken(queue), **names)


def heading(rule):
    return '%d %s' % (rule.object, rule.name) + ('' if rule.child is None else ' from %d' % rule.child)


# The design

def declarations(modules, queues):
    for name in modules.registers:
        yield '  reg [63:0] r_%s;' % name
    for name, depth, _ in queues:
        # The sum of a place and a number of items is below twice the depth.
        yield QUEUE.format(name=name, depth=depth, last=depth - 1, top=max(1, (2 * depth).bit_length()))


def start_lines(modules, queues):
    """What a reset does."""
    yield "fired <= 64'd0;"
    for name, value in modules.registers.items():
        yield "r_%s <= 64'd%d;" % (name, value)
    for name, _, items in queues:
        yield 'q_%s_first <= 0;' % name
        yield 'q_%s_count <= %d;' % (name, len(items))
        for place, (message, value) in enumerate(items):
            yield "q_%s_id[%d] <= 32'd%d; q_%s_value[%d] <= 64'd%d;" % (name, place, message, name, place, value)


def case_lines(rules):
    """The rules in their order: the first that can fire does."""
    yield '    end else case (1\'b1)'
    for place, rule in enumerate(rules):
        yield '      can[%d]: begin // %s' % (place, heading(rule.rule))
        yield "        fired <= fired + 64'd1;"
        yield from ('        ' + line for line in rule.lines())
        yield '      end'
    yield '      default: ;'
    yield '    endcase'


def design(modules, items, depth):
    """The design as lines of text."""
    queues = queues_of(modules, items, depth)
    depths = {queue.name: queue.depth for queue in queues}
    rules = [Rule(rule, depths) for rule in modules.rules if not rule.spontaneous]
    yield HEAD.format(name=modules.name)
    yield from declarations(modules, queues)
    yield '  // Which rules can fire; none does while it is reset.'
    yield '  reg [%d:0] can;' % max(0, len(rules) - 1)
    yield '  always @* begin'
    yield '    can = 0;'
    yield '    if (!reset) begin'
    for place, rule in enumerate(rules):
        yield '      can[%d] = %s; // %s' % (place, rule.can(), heading(rule.rule))
    yield '    end'
    yield '  end'
    yield '  assign stuck = can == 0;'
    yield '  always @(posedge clock)'
    yield '    if (reset) begin'
    yield from ('      ' + line for line in start_lines(modules, queues))
    yield from case_lines(rules) if rules else ['    end']
    yield 'endmodule'
