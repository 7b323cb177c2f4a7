"""The parts of `tools/verilog` and `tools/verilog-check`: the design, its test bench, and how both are simulated."""
