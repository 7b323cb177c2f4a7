"""A test bench for a design: it runs to the end or for so many firings, and prints what `hem play` prints."""
from verilogging.design import queues_of

BEFORE = '''
module bench;
  reg clock, reset;
  wire stuck;
  wire [63:0] fired;
  integer k;
  m_{name} played (.clock(clock), .reset(reset), .stuck(stuck), .fired(fired));
  initial begin
    clock = 0; reset = 1;
    #1 clock = 1;
    #1 clock = 0; reset = 0;
    #1;
    while (!stuck && fired < 64'd{count}) begin
      #1 clock = 1;
      #1 clock = 0;
      #1;
    end
    if (stuck) $display("stuck"); else $display("more");
    $display("fired %0d", fired);'''

REGISTER = '    if (played.r_{name} != 0) $display("reg {name} %0d", played.r_{name});'

QUEUE = '''    if (played.q_{name}_count != 0) begin
      $write("queue {name}");
      for (k = 0; k < played.q_{name}_count; k = k + 1)
        $write(" %0d:%0d", played.q_{name}_id[(played.q_{name}_first + k) % {depth}],
               played.q_{name}_value[(played.q_{name}_first + k) % {depth}]);
      $write("\\n");
    end'''

AFTER = '''    $display("end");
    $finish;
  end
endmodule'''


def bench(modules, items, depth, count):
    """The test bench as lines of text."""
    yield BEFORE.format(name=modules.name, count=count)
    for name in modules.registers:
        yield REGISTER.format(name=name)
    for queue in queues_of(modules, items, depth):
        yield QUEUE.format(name=queue.name, depth=queue.depth)
    yield AFTER
